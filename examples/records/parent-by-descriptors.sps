; writes (#t 1 2)
(import (rnrs) (rnrs records syntactic))
(define-record-type a (fields x))
(define-record-type b
  (parent-rtd (record-type-descriptor a) (record-constructor-descriptor a))
  (fields y))
(define it (make-b 1 2))
(write (list (a? it) (a-x it) (b-y it)))
