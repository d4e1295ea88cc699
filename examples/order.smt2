(set-logic QF_UFIDL)
; f keeps what is equal, so the order is lost
(declare-const x Int)
(declare-const y Int)
(declare-fun f (Int) Int)
(assert (= x y))
(assert (< (- (f x) (f y)) 0))
(check-sat)
