(assert (not (= (not true) false)))
(check-sat)
