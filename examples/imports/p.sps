; Each kind of import set (R6RS 7.1).
(import
  (only (rnrs base) define lambda quote define-syntax ...)
  (except (rnrs lists) filter)
  (prefix (only (rnrs base) if null?) base:)
  (rename (only (rnrs base) car cdr) (car first) (cdr rest))
  (for (only (rnrs base) syntax-rules _) expand)
  (library (rnrs io simple))
  (stack (1 (or (>= 2) 0))))

(define-syntax top
  (syntax-rules ()
    ((_ stack) (base:if (base:null? stack) 'nothing (first stack)))))

(define letters (push 'a (push 'b empty)))
(display (top letters))
(display (find (lambda (x) x) (rest letters)))
