(set-logic QF_UF)
; f applied three and five times gives a, so f(a) is a
(declare-sort U 0)
(declare-const a U)
(declare-fun f (U) U)
(assert (= (f (f (f a))) a))
(assert (= (f (f (f (f (f a))))) a))
(assert (not (= (f a) a)))
(check-sat)
