(import (rnrs) (shapes area))

(define side 3)
(display (square-area side))
(display (unless-negative side "a side"))
