;; Loops with break and continue. The two names are meant for the body, so they are made with the context
;; of the keyword that was used, and a body that is nested in another loop refers to its own.
(library (loops)
  (export while for)
  (import (rnrs))

  ;; What both loops are made of; the context of `keyword` is that of the two names.
  (define-syntax loop-with
    (lambda (form)
      (syntax-case form ()
        ((_ keyword test body ...)
         (with-syntax ((break (datum->syntax #'keyword 'break))
                       (continue (datum->syntax #'keyword 'continue)))
           #'(call/cc
               (lambda (break)
                 (let loop ()
                   (when test
                     (call/cc (lambda (continue) body ... #f))
                     (loop))))))))))

  ;; (while test body ...)
  (define-syntax while
    (lambda (form)
      (syntax-case form ()
        ((keyword test body ...)
         #'(loop-with keyword test body ...)))))

  ;; (for (name list) body ...)
  (define-syntax for
    (lambda (form)
      (syntax-case form ()
        ((keyword (name list) body ...)
         #'(let ((rest list))
             (loop-with keyword (pair? rest)
               (let ((name (car rest)))
                 (set! rest (cdr rest))
                 body ...))))))))
