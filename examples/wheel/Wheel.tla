---- MODULE Wheel ----
EXTENDS Integers
VARIABLE x
Init == x \in 0..9999
Next == x' = (x + 1) % 10000
====
