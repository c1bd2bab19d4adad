(import (rnrs))
(define-syntax my-or
  (lambda (s)
    (syntax-case s ()
      ((_ a b) #'((lambda (t) (if t t b)) a)))))
(define t 5)
(my-or #f t)
