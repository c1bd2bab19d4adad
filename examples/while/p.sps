;; A language extension: loops whose bodies may break and continue.
(import (rnrs) (loops))

(define (show object)
  (write object)
  (newline))

(define n 0)
(define result
  (while #t
    (set! n (+ n 1))
    (if (= n 5) (break 'five))))
(show (list n result))

;; The name of the program is not the one that the loop captures, and `loop` and `rest` are the program's
;; own.
(define (first-odd-square loop)
  (define rest 'mine)
  (for (x loop)
    (if (even? x) (continue #f))
    (break (list (* x x) rest))))
(show (first-odd-square '(2 4 7 9)))

;; In nested loops each name refers to the loop round it.
(for (row '((1 2 3) (4 0 6) (7 8 9)))
  (for (x row)
    (if (zero? x) (break #f))
    (display x)
    (display " "))
  (newline))

;; Outside of a loop `break` is a name as any other.
(define (break x) (list 'outside x))
(show (break 1))
(show (let ((while list)) (while 1 2)))
