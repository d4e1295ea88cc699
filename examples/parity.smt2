(set-logic QF_UF)
; x, y and z cannot differ from one another in pairs
(declare-const x Bool)
(declare-const y Bool)
(declare-const z Bool)
(assert (xor x y))
(assert (xor y z))
(assert (xor x z))
(check-sat)
