(library (stack (1 2))
  (export (rename (cons push) (none empty)))
  (import (only (rnrs base) cons define quote))

  (define none '()))
