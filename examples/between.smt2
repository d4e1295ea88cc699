(set-logic QF_LIA)
; no whole number lies between x and x + 1
(declare-const x Int)
(declare-const y Int)
(assert (< x y))
(assert (< y (+ x 1)))
(check-sat)
