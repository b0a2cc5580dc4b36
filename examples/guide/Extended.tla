---- MODULE Extended ----
EXTENDS Integers, Sums
VARIABLE x
Init == x = 0
Next == x' = Plus(x, 1)
====
