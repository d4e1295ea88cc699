(set-logic QF_IDL)
; a is before b, and b not behind a
(declare-const a Int)
(declare-const b Int)
(assert (< a b))
(assert (<= b a))
(check-sat)
