;; Parser combinators. A parser is a procedure of a list of characters; it gives a pair of a value and the
;; characters that are left, or #f.
(library (parse)
  (export parse-all give satisfy literal either many some parse-let* define-parser)
  (import (rnrs))

  (define (give value) (lambda (input) (cons value input)))

  (define (satisfy test)
    (lambda (input)
      (and (pair? input) (test (car input)) (cons (car input) (cdr input)))))

  (define (literal c) (satisfy (lambda (other) (char=? c other))))

  (define (then parser next)
    (lambda (input)
      (let ((result (parser input)))
        (and result ((next (car result)) (cdr result))))))

  (define-syntax either
    (syntax-rules ()
      ((_ parser ...) (lambda (input) (or (parser input) ...)))))

  ;; (parse-let* ((name parser) ...) value); `_` stands for a value that isn't needed.
  (define-syntax parse-let*
    (syntax-rules ()
      ((_ () value) (give value))
      ((_ ((name parser) step ...) value)
       (then parser (lambda (name) (parse-let* (step ...) value))))))

  (define (some parser)
    (parse-let* ((first parser) (rest (many parser))) (cons first rest)))
  (define (many parser)
    (lambda (input)
      (let loop ((input input) (values '()))
        (let ((result (parser input)))
          (if result
              (loop (cdr result) (cons (car result) values))
              (cons (reverse values) input))))))

  ;; A parser that may refer to those that are defined behind it.
  (define-syntax define-parser
    (syntax-rules ()
      ((_ name parser) (define (name input) (parser input)))))

  (define (parse-all parser text)
    (let ((result (parser (string->list text))))
      (and result (null? (cdr result)) (car result)))))
