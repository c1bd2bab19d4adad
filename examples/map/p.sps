(import (rnrs))
(define-syntax my-or
  (syntax-rules () ((_ a b) (let ((t a)) (if t t b)))))
(define t 5)
(my-or #f t)
