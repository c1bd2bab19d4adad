; One fault is told, the first. Here z is bound nowhere; (quote) without a datum comes later.
(import (rnrs))

(define (double x)
  (let ((y (* 2 x)))
    (+ y z)))

(double (quote))
