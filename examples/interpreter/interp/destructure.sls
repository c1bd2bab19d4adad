;; Takes lists apart by patterns: () is the empty list, 'x the datum x, (p . q) a pair, and a name anything.
(library (interp destructure)
  (export destructure)
  (import (rnrs))

  (define-syntax destructure
    (syntax-rules ()
      ((_ expression clause ...)
       (let ((object expression)) (try-clauses object clause ...)))))

  (define-syntax try-clauses
    (syntax-rules ()
      ((_ object) (assertion-violation 'destructure "no clause fits" object))
      ((_ object (pattern body ...) clause ...)
       (let ((otherwise (lambda () (try-clauses object clause ...))))
         (fit object pattern (let () body ...) (otherwise))))))

  (define-syntax fit
    (syntax-rules (quote)
      ((_ object () then else) (if (null? object) then else))
      ((_ object 'datum then else) (if (equal? object 'datum) then else))
      ((_ object (first . rest) then else)
       (if (pair? object)
           (let ((head (car object)) (tail (cdr object)))
             (fit head first (fit tail rest then else) else))
           else))
      ((_ object name then else) (let ((name object)) then)))))
