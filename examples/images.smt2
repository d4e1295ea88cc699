(set-logic QF_UFLIA)
; equal numbers have equal images
(declare-const x Int)
(declare-const y Int)
(declare-fun f (Int) Int)
(assert (<= x y))
(assert (<= y x))
(assert (not (= (f x) (f y))))
(check-sat)
