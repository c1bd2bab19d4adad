;; (rnrs enums), R6RS libraries 14. A set of symbols of a universe is a record: the universe, a vector,
;; and a list of booleans, one for each of its symbols.
(library (rnrs enums (6))
  (export make-enumeration enum-set-universe enum-set-indexer enum-set-constructor enum-set->list
          enum-set-member? enum-set-subset? enum-set=? enum-set-union enum-set-intersection
          enum-set-difference enum-set-complement enum-set-projection define-enumeration)
  (import (rnrs) (rnrs records syntactic) (rnrs records procedural))

  (define-record-type (enum-set make-enum-set enum-set?)
    (fields (immutable type enum-set-type) (immutable members enum-set-members)))

  (define (check who set)
    (if (not (enum-set? set)) (assertion-violation who "not an enumeration set" set)))

  (define (without-repeats symbols)
    (let loop ((symbols symbols) (seen '()))
      (cond ((null? symbols) (reverse seen))
            ((memq (car symbols) seen) (loop (cdr symbols) seen))
            (else (loop (cdr symbols) (cons (car symbols) seen))))))

  (define (set-of type chosen?)
    (make-enum-set type (map chosen? (vector->list type))))

  (define (make-enumeration symbols)
    (set-of (list->vector (without-repeats symbols)) (lambda (symbol) #t)))

  (define (enum-set-universe set)
    (check 'enum-set-universe set)
    (set-of (enum-set-type set) (lambda (symbol) #t)))

  (define (index-of symbol symbols)
    (let loop ((symbols symbols) (place 0))
      (cond ((null? symbols) #f)
            ((eq? symbol (car symbols)) place)
            (else (loop (cdr symbols) (+ place 1))))))

  (define (enum-set-indexer set)
    (check 'enum-set-indexer set)
    (let ((symbols (vector->list (enum-set-type set))))
      (lambda (symbol) (index-of symbol symbols))))

  (define (enum-set-constructor set)
    (check 'enum-set-constructor set)
    (let* ((type (enum-set-type set)) (universe (vector->list type)))
      (lambda (symbols)
        (for-each
          (lambda (symbol)
            (if (not (memq symbol universe))
                (assertion-violation 'enum-set-constructor "not a symbol of the universe" symbol)))
          symbols)
        (set-of type (lambda (symbol) (if (memq symbol symbols) #t #f))))))

  (define (enum-set->list set)
    (check 'enum-set->list set)
    (let loop ((symbols (vector->list (enum-set-type set))) (members (enum-set-members set)))
      (cond ((null? symbols) '())
            ((car members) (cons (car symbols) (loop (cdr symbols) (cdr members))))
            (else (loop (cdr symbols) (cdr members))))))

  (define (enum-set-member? symbol set)
    (if (memq symbol (enum-set->list set)) #t #f))

  (define (subset? some all)
    (for-all (lambda (symbol) (memq symbol all)) some))

  ;; Sets of different universes may be compared, by their symbols and by those of their universes.
  (define (enum-set-subset? a b)
    (check 'enum-set-subset? a)
    (check 'enum-set-subset? b)
    (and (subset? (enum-set->list a) (enum-set->list b))
         (subset? (vector->list (enum-set-type a)) (vector->list (enum-set-type b)))
         #t))
  (define (enum-set=? a b)
    (and (enum-set-subset? a b) (enum-set-subset? b a)))

  (define (combined who a b choose)
    (check who a)
    (check who b)
    (if (not (eq? (enum-set-type a) (enum-set-type b)))
        (assertion-violation who "sets of different enumerations" a b))
    (make-enum-set (enum-set-type a) (map choose (enum-set-members a) (enum-set-members b))))
  (define (enum-set-union a b)
    (combined 'enum-set-union a b (lambda (in-a in-b) (or in-a in-b))))
  (define (enum-set-intersection a b)
    (combined 'enum-set-intersection a b (lambda (in-a in-b) (and in-a in-b))))
  (define (enum-set-difference a b)
    (combined 'enum-set-difference a b (lambda (in-a in-b) (and in-a (not in-b)))))

  (define (enum-set-complement set)
    (check 'enum-set-complement set)
    (make-enum-set (enum-set-type set) (map not (enum-set-members set))))

  (define (enum-set-projection a b)
    (check 'enum-set-projection b)
    (let ((symbols (enum-set->list a)))
      (set-of (enum-set-type b) (lambda (symbol) (if (memq symbol symbols) #t #f)))))

  ;; The symbols are checked when the two keywords are expanded.
  (define-syntax define-enumeration
    (lambda (form)
      (syntax-case form ()
        ((_ type (symbol ...) constructor)
         (for-all identifier? #'(type symbol ... constructor))
         #'(begin
             (define construct (enum-set-constructor (make-enumeration '(symbol ...))))
             (define-syntax type
               (lambda (form)
                 (syntax-case form ()
                   ((_ s)
                    (memq (syntax->datum #'s) '(symbol ...))
                    #''s))))
             (define-syntax constructor
               (lambda (form)
                 (syntax-case form ()
                   ((_ s (... ...))
                    (for-all (lambda (each) (memq each '(symbol ...))) (syntax->datum #'(s (... ...))))
                    #'(construct '(s (... ...))))))))))))
  )
