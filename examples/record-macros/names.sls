;; Names that macros make of others. It is a library of its own, since transformers use it: nothing of it
;; is in the core text.
(library (names)
  (export joined)
  (import (rnrs))

  ;; The name that these names and strings make, with the context of an identifier.
  (define (joined context . parts)
    (datum->syntax context
      (string->symbol
        (apply string-append
          (map (lambda (part) (if (string? part) part (symbol->string (syntax->datum part)))) parts))))))
