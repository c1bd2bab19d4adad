;; Runs programs in a small Scheme: three libraries, each of which uses macros of the others.
(import (rnrs) (interp evaluator))

(define global (primitives))
(for-each
  (lambda (expression)
    (evaluate expression global))
  '((define (factorial n) (if (= n 0) 1 (* n (factorial (- n 1)))))
    (define (map f l) (if (null? l) '() (cons (f (car l)) (map f (cdr l)))))
    (define (counter) (let ((n 0)) (lambda () (begin (set! n (+ n 1)) n))))
    (define next (counter))))

(define (show expression)
  (write expression)
  (display " => ")
  (write (evaluate expression global))
  (newline))

(show '(factorial 10))
(show '(map (lambda (n) (* n n)) (list 1 2 3)))
(show '(begin (next) (next) (next)))
(show '((lambda all all) 1 2 3))
(show '(let ((x 1) (y 2)) (let ((x y) (y x)) (list x y))))
(show '(let ((if list)) (if 1 2 3)))
