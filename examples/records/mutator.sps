; writes 17
(import (rnrs) (rnrs records syntactic))
(define-record-type (point make-point point?)
  (fields (immutable x point-x)
          (mutable y point-y set-point-y!))
  (nongenerative point-4893d957-e00b-11d9-817f-00111175eb9e))
(define p1 (make-point 1 2))
(set-point-y! p1 17)
(write (point-y p1))
