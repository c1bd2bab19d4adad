;; Environments of an interpreter: records, and a form that evaluates under more bindings.
(library (interp environment)
  (export make-environment bind! value-of assign! with-bindings)
  (import (rnrs) (rnrs records syntactic) (rnrs records procedural))

  (define-record-type (environment new-environment environment?)
    (fields (mutable rows rows set-rows!) (immutable outer outer)))

  (define (make-environment outer)
    (new-environment '() outer))

  (define (bind! environment name value)
    (set-rows! environment (cons (vector name value) (rows environment))))

  (define (row-of environment name)
    (if environment
        (or (find (lambda (row) (eq? (vector-ref row 0) name)) (rows environment))
            (row-of (outer environment) name))
        (error 'value-of "unbound variable" name)))

  (define (value-of environment name)
    (vector-ref (row-of environment name) 1))

  (define (assign! environment name value)
    (vector-set! (row-of environment name) 1 value))

  ;; (with-bindings (inner outer) ((name value) ...) body ...)
  (define-syntax with-bindings
    (syntax-rules ()
      ((_ (inner outer) ((name value) ...) body ...)
       (let ((inner (make-environment outer)))
         (bind! inner name value) ...
         body ...)))))
