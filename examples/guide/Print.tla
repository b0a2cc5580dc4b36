---- MODULE Print ----
EXTENDS Integers, TLC
VARIABLE x
Init == x = 0
Next == x' = x + 1 /\ Print(x, TRUE)
====
