;; Types with variants, made of record types.
;;
;;     (define-variants shape (circle radius) (box width height))
;;
;; defines shape?, and for each variant its constructor, circle, its predicate, circle?, an accessor for
;; each field, as circle-radius, and circle->list, which gives the fields.
;;
;;     (variant-case s ((circle r) ..) ((box w h) ..) (else ..))
;;
;; takes the clause of the variant that s is.
(library (variants)
  (export define-variants variant-case)
  (import (rnrs) (rnrs records syntactic) (rnrs records procedural) (names))

  (define-syntax define-variants
    (lambda (form)
      (syntax-case form ()
        ((_ type (variant field ...) ...)
         (with-syntax ((type? (joined #'type #'type "?"))
                       (make-type (joined #'type "make-" #'type))
                       ((record ...) (generate-temporaries #'(variant ...)))
                       ((variant? ...) (map (lambda (v) (joined v v "?")) #'(variant ...)))
                       ((variant->list ...) (map (lambda (v) (joined v v "->list")) #'(variant ...)))
                       (((accessor ...) ...)
                        (map (lambda (v fields) (map (lambda (f) (joined v v "-" f)) fields))
                             #'(variant ...)
                             #'((field ...) ...))))
           #'(begin
               (define-record-type (type make-type type?))
               (begin
                 (define-record-type (record variant variant?)
                   (parent type)
                   (fields (immutable field accessor) ...))
                 (define (variant->list object) (list (accessor object) ...)))
               ...))))))

  (define-syntax variant-case
    (lambda (form)
      (syntax-case form (else)
        ((_ expression) #'(assertion-violation 'variant-case "no clause fits" expression))
        ((_ expression (else body ...)) #'(let () body ...))
        ((_ expression ((variant name ...) body ...) clause ...)
         (with-syntax ((variant? (joined #'variant #'variant "?"))
                       (variant->list (joined #'variant #'variant "->list")))
           #'(let ((object expression))
               (if (variant? object)
                   (apply (lambda (name ...) body ...) (variant->list object))
                   (variant-case object clause ...)))))))))
