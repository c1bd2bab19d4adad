(import (rnrs) (rnrs r5rs))

(define (show . objects)
  (for-each display objects)
  (newline))

(define signs '((13 . 4) (-13 . 4) (13 . -4) (-13 . -4) (12 . 4) (-12 . -4) (0 . 7)))
(for-each
  (lambda (pair)
    (let ((n (car pair)) (d (cdr pair)))
      (show n " " d ": " (quotient n d) " " (remainder n d) " " (modulo n d))))
  signs)

(show (inexact->exact 2.0) " " (inexact? (exact->inexact 2)))

;; A promise computes once.
(define count 0)
(define promise (delay (begin (set! count (+ count 1)) (* 6 7))))
(show (force promise) " " (force promise) " " count)

;; A stream of numbers, and its first primes.
(define (from n) (cons n (delay (from (+ n 1)))))
(define (sieve stream)
  (let ((p (car stream)))
    (cons p
          (delay
            (sieve
              (let loop ((stream (force (cdr stream))))
                (if (zero? (modulo (car stream) p))
                    (loop (force (cdr stream)))
                    (cons (car stream) (delay (loop (force (cdr stream))))))))))))
(define (take stream n)
  (if (zero? n) '() (cons (car stream) (take (force (cdr stream)) (- n 1)))))
(write (take (sieve (from 2)) 12))
(newline)

;; The promise of the report that forces itself: the value that is there first stays.
(define x 5)
(define self
  (delay (begin (set! x (+ x 1)) (if (> x 8) x (force self)))))
(show (force self) " " (begin (set! x 100) (force self)))
