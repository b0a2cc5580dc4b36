---- MODULE Bounded ----
EXTENDS Integers
VARIABLE x
Init == x = 0
Next == x' = x + 1
Small == x < 10
====
