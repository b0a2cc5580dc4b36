---- MODULE Asserted ----
EXTENDS Integers
PrintT(e) == TRUE
Assert(e, t) == e
VARIABLE x
Init == x = 0
Next == /\ x' = x + 1
        /\ PrintT(x)
        /\ Assert(x' < 3, "too far")
====
