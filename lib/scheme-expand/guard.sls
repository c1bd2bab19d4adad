;; guard, of (rnrs exceptions), R6RS libraries 7.1, over with-exception-handler. What is raised is any
;; object: the condition types of R6RS have no names in core text.
(library (scheme-expand guard)
  (export guard)
  (import (rnrs))

  ;; The body runs under a handler. When something is raised, the clauses are tried where the guard form
  ;; stands; where none takes it, it is raised again where it was raised first, to be continued.
  (define-syntax guard
    (syntax-rules ()
      ((_ (variable clause ...) first rest ...)
       ((call/cc
          (lambda (leave)
            (with-exception-handler
              (lambda (raised)
                ((call/cc
                   (lambda (return)
                     (leave
                       (lambda ()
                         (let ((variable raised))
                           (try (return (lambda () (raise-continuable raised))) clause ...))))))))
              (lambda ()
                (call-with-values
                  (lambda () first rest ...)
                  (lambda values-given
                    (leave (lambda () (apply values values-given)))))))))))))

  ;; The clauses, as those of cond; the first expression is what is done where none takes the object.
  (define-syntax try
    (syntax-rules (else =>)
      ((_ again) again)
      ((_ again (else result1 result2 ...)) (begin result1 result2 ...))
      ((_ again (test => receiver) clause ...)
       (let ((value test)) (if value (receiver value) (try again clause ...))))
      ((_ again (test) clause ...)
       (let ((value test)) (if value value (try again clause ...))))
      ((_ again (test result1 result2 ...) clause ...)
       (if test (begin result1 result2 ...) (try again clause ...))))))
