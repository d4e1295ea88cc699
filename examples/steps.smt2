(set-logic QF_UFLIA)
; f(n) is negative, n is 3, and f(3) is not negative
(declare-const n Int)
(declare-fun f (Int) Int)
(assert (< (f n) 0))
(assert (= n 3))
(assert (>= (f 3) 0))
(check-sat)
