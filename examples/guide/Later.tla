---- MODULE Later ----
EXTENDS Integers
VARIABLES x, y
Init == x = 0 /\ y = 0
Next == x' \in 1..9 /\ x' > x /\ y' = x'
====
