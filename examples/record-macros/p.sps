;; Record types that macros define, with names made of those in the use.
(import (rnrs) (variants))

(define-variants shape
  (circle radius)
  (box width height)
  (nothing))

(define (area s)
  (variant-case s
    ((circle r) (* 3 r r))
    ((box w h) (* w h))
    (else 0)))

(define (show object)
  (write object)
  (newline))

(define shapes (list (circle 2) (box 3 4) (nothing)))
(show (map area shapes))
(show (map shape? shapes))
(show (map circle? shapes))
(show (circle-radius (car shapes)))
(show (box-height (cadr shapes)))
(show (map (lambda (s) (variant-case s ((nothing) 'nothing) ((circle r) r) ((box w h) (list w h)))) shapes))

;; A variant of one type is none of another.
(define-variants tree (leaf value) (node left right))
(define (total t)
  (variant-case t
    ((leaf v) v)
    ((node l r) (+ (total l) (total r)))))
(show (total (node (leaf 1) (node (leaf 2) (leaf 3)))))
(show (map shape? (list (leaf 1))))
