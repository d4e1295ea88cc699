(set-logic QF_IDL)
; early or late, and both contradict the order
(declare-const a Int)
(declare-const b Int)
(declare-const late Bool)
(assert (=> late (> a b)))
(assert (=> (not late) (> a b)))
(assert (not (> a b)))
(check-sat)
