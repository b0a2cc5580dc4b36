---- MODULE Range ----
EXTENDS Integers
VARIABLE x
Init == x = 0
Next == x' \in 1..3
====
