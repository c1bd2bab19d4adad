;; Runs the core texts in the folders given, and compares the values with those that are wanted.

(define (data file)
  (call-with-input-file file
    (lambda (port)
      (let loop ((all '()))
        (let ((datum (read port)))
          (if (eof-object? datum) (reverse all) (loop (cons datum all))))))))

(define (line file) (call-with-input-file file get-line))

;; The values of the last form, as a list.
(define (run core)
  (if (null? (cdr core))
      (call-with-values (lambda () (interpret (car core))) list)
      (begin (interpret (car core)) (run (cdr core)))))

(define (given folder)
  (if (file-exists? (string-append folder "/fault"))
      (data (string-append folder "/fault"))
      (call/cc
        (lambda (leave)
          (with-exception-handler
            (lambda (raised)
              (leave (list 'raised (call-with-string-output-port
                                     (lambda (port) (display-condition raised port))))))
            (lambda () (run (data (string-append folder "/core.sps")))))))))

;; The part of a list before a word, and the part behind it, which is #f where the word isn't there.
(define (before word all) (if (memq word all) (list-head all (- (length all) (length (memq word all)))) all))
(define (behind word all) (cond ((memq word all) => cdr) (else #f)))

;; Whether the values are those before an `or`, or after it.
(define (fits? values wanted)
  (or (equal? values (before 'or wanted))
      (let ((others (behind 'or wanted)))
        (and others (fits? values others)))))

(define (write-all all)
  (for-each (lambda (one) (display " ") (write one)) all)
  (newline))

(let loop ((folders (command-line-arguments)) (right 0) (known 0) (wrong 0))
  (if (null? folders)
      (begin
        (printf "~a programs: ~a give what the report has, ~a a known other value, ~a differ\n"
                (+ right known wrong) right known wrong)
        (exit (if (= wrong 0) 0 1)))
      (let* ((folder (car folders))
             (wanted (data (string-append folder "/wanted")))
             (values (given folder)))
        (cond ((fits? values (before 'but wanted)) (loop (cdr folders) (+ right 1) known wrong))
              ((equal? values (behind 'but wanted)) (loop (cdr folders) right (+ known 1) wrong))
              (else
               (printf "~a gives" (line (string-append folder "/place")))
               (write-all values)
               (display "    wanted")
               (write-all wanted)
               (loop (cdr folders) right known (+ wrong 1)))))))
