(import (rnrs) (scheme-expand guard))

(define (show object)
  (write object)
  (newline))

;; The clauses are those of cond.
(define (try thunk)
  (guard (e ((symbol? e) (list 'symbol e))
            ((assq 'a e) => cdr)
            ((assq 'b e)))
    (thunk)))
(show (try (lambda () (raise 'oops))))
(show (try (lambda () (raise (list (cons 'a 42))))))
(show (try (lambda () (raise (list (cons 'b 23))))))
(show (guard (e (else 'other)) (raise 1)))
(show (guard (e (#t 'never)) 'fine))
(show (call-with-values (lambda () (guard (e (#t 'never)) (values 1 2))) list))

;; An object that no clause takes goes on to the guard outside.
(show
  (guard (e ((number? e) (* 2 e)))
    (guard (e ((string? e) 'inner))
      (raise 21))))

;; It is raised again where it was raised first, and a handler there may go on.
(show
  (with-exception-handler
    (lambda (e) 10)
    (lambda ()
      (guard (e ((string? e) 'no))
        (+ 1 (raise-continuable 'more))))))

;; The clauses run outside of what the body has wound up.
(define trace '())
(define (note! what) (set! trace (cons what trace)))
(guard (e (#t (note! 'clause)))
  (dynamic-wind
    (lambda () (note! 'in))
    (lambda () (raise 'oops))
    (lambda () (note! 'out))))
(show (reverse trace))

;; The body's names are those of the use.
(define leave 'mine)
(define raised 'mine-too)
(show (guard (e (#t (list e leave raised))) (raise (list leave raised))))
