;; An evaluator of a small Scheme. Its special forms are written by define-evaluator, each as a pattern
;; and an expression.
(library (interp evaluator)
  (export evaluate primitives)
  (import (rnrs) (interp destructure) (interp environment))

  ;; What the clauses share: in them `recur` evaluates a part.
  (define-syntax define-evaluator
    (lambda (form)
      (syntax-case form ()
        ((k (name expression environment) (pattern body ...) ...)
         (with-syntax ((recur (datum->syntax #'k 'recur)))
           #'(define (name expression environment)
               (define (recur part) (name part environment))
               (cond ((symbol? expression) (value-of environment expression))
                     ((not (pair? expression)) expression)
                     (else (destructure expression (pattern body ...) ...)))))))))

  (define (extend! environment formals arguments)
    (destructure formals
      (() environment)
      ((name . names)
       (bind! environment name (car arguments))
       (extend! environment names (cdr arguments)))
      (rest (bind! environment rest arguments) environment)))

  (define (in-order expressions environment)
    (fold-left (lambda (last expression) (evaluate expression environment)) #f expressions))

  (define-evaluator (evaluate expression environment)
    (('quote datum) datum)
    (('if test then else) (if (recur test) (recur then) (recur else)))
    (('set! name value) (assign! environment name (recur value)))
    (('define (name . formals) . body) (recur `(define ,name (lambda ,formals . ,body))))
    (('define name value) (bind! environment name (recur value)))
    (('begin . expressions) (in-order expressions environment))
    (('lambda formals . body)
     (lambda arguments
       (with-bindings (inner environment) ()
         (in-order body (extend! inner formals arguments)))))
    (('let bindings . body) (recur `((lambda ,(map car bindings) . ,body) . ,(map cadr bindings))))
    ((operator . operands) (apply (recur operator) (map recur operands))))

  (define (primitives)
    (with-bindings (environment #f)
        (('+ +) ('- -) ('* *) ('= =) ('< <) ('cons cons) ('car car) ('cdr cdr) ('null? null?) ('list list))
      environment)))
