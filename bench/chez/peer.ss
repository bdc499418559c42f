;; compile-program to peer.so; the workload's name comes in the variable PEER
(import (chezscheme))
(define-record-type node (fields red left key right))
(define-record-type bin (fields left item right))
(define-record-type step (fields left item other up))
(define (read-all)
  (let ((s (get-string-all (current-input-port)))) (if (eof-object? s) "" s)))
(include "guile/body.scm")
(run (getenv "PEER"))
