(library (shapes area)
  (export square-area unless-negative)
  (import (rnrs))

  (define-syntax unless-negative
    (syntax-rules ()
      ((_ number result) (if (< number 0) 0 result))))

  (define (square-area side)
    (unless-negative side (* side side))))
