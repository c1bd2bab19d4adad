;; (rnrs r5rs), R6RS libraries 19, but for null-environment and scheme-report-environment: core text has
;; no names for environments.
(library (rnrs r5rs (6))
  (export exact->inexact inexact->exact quotient remainder modulo delay force)
  (import (rnrs))

  (define (exact->inexact z) (inexact z))
  (define (inexact->exact z) (exact z))

  ;; The quotient is cut towards zero, the remainder has the sign of n, and the modulo that of d.
  (define (quotient n d)
    (let ((q (div (abs n) (abs d))))
      (if (eq? (negative? n) (negative? d)) q (- q))))
  (define (remainder n d)
    (- n (* d (quotient n d))))
  (define (modulo n d)
    (let ((m (mod n d)))
      (if (and (negative? d) (not (zero? m))) (+ m d) m)))

  ;; A promise is a procedure, as in the report. The value that is there first stays, also where forcing
  ;; it forces it again.
  (define (make-promise compute)
    (let ((ready #f) (value #f))
      (lambda ()
        (if ready
            value
            (let ((computed (compute)))
              (if ready
                  value
                  (begin (set! ready #t) (set! value computed) computed)))))))
  (define (force promise) (promise))
  (define-syntax delay
    (syntax-rules () ((_ expression) (make-promise (lambda () expression))))))
