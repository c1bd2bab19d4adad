;; Parses sums and products, and simplifies and evaluates their trees by pattern matching.
(import (rnrs) (match) (parse))

(define (digit? c) (and (char<=? #\0 c) (char<=? c #\9)))
(define (letter? c) (and (char<=? #\a c) (char<=? c #\z)))

(define (operators first rest)
  (fold-left (lambda (left step) (list (car step) left (cdr step))) first rest))

(define-parser sum
  (parse-let* ((first product)
               (rest (many (parse-let* ((op (either (literal #\+) (literal #\-))) (right product))
                             (cons (if (char=? op #\+) '+ '-) right)))))
    (operators first rest)))
(define-parser product
  (parse-let* ((first factor)
               (rest (many (parse-let* ((op (literal #\*)) (right factor)) (cons '* right)))))
    (operators first rest)))
(define-parser factor
  (either
    (parse-let* ((digits (some (satisfy digit?)))) (string->number (list->string digits)))
    (parse-let* ((letters (some (satisfy letter?)))) (string->symbol (list->string letters)))
    (parse-let* ((open (literal #\()) (inside sum) (close (literal #\)))) inside)))

(define (simplified tree)
  (match tree
    ((op a b) (rewritten (list op (simplified a) (simplified b))))
    (leaf leaf)))
(define (rewritten tree)
  (match tree
    (('+ (? number? a) (? number? b)) (+ a b))
    (('- (? number? a) (? number? b)) (- a b))
    (('* (? number? a) (? number? b)) (* a b))
    (('+ 0 a) a)
    (('+ a 0) a)
    (('* 0 _) 0)
    (('* _ 0) 0)
    (('* 1 a) a)
    (('* a 1) a)
    (('- a b) (when (equal? a b)) 0)
    (other other)))

(for-each
  (lambda (text)
    (let ((tree (parse-all sum text)))
      (write text)
      (display " => ")
      (write tree)
      (if tree (begin (display " => ") (write (simplified tree))))
      (newline)))
  '("1+2*3" "(1+2)*3" "x*1+0*y" "a*b-a*b" "2*(3+x)*1" "10-2-3" "1+" "((x))"))

;; An ellipsis binds the lists of what its parts fit.
(write
  (match '(let ((a 1) (b 2) (c (+ 1 2))) (list a b c))
    (('let ((name value) ...) body) `((lambda ,name ,body) ,@value))))
(newline)
(write
  (map (lambda (object)
         (match object
           (((? symbol? keys) ...) (list 'symbols keys))
           (((? number? n) ...) (when (= 2 (length n))) (list 'two-numbers n))
           (#t 'true)
           ("text" 'text)
           (_ 'other)))
       '((a b) (1 2) (1 2 3) #t "text" ())))
(newline)
