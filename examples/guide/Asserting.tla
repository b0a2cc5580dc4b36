---- MODULE Asserting ----
EXTENDS Integers, TLC
VARIABLE x
Init == x = 0
Next == /\ x' = x + 1
        /\ PrintT(x)
        /\ Assert(x' < 3, "too far")
====
