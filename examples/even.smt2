(set-logic QF_LIA)
; an even number is not one more than an even number
(declare-const x Int)
(declare-const y Int)
(assert (= (* 2 x) (+ (* 2 y) 1)))
(check-sat)
