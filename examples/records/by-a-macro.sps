; writes (#t #f 7)
(import (rnrs) (rnrs records syntactic))
; each use of the macro makes another type
(define-syntax define-box
  (syntax-rules ()
    ((_ names field access)
     (define-record-type names (fields (immutable field access))))))
(define-box (u make-u u?) f u-f)
(define-box (w make-w w?) f w-f)
(write (list (u? (make-u 1)) (u? (make-w 1)) (w-f (make-w 7))))
