---- MODULE Early ----
EXTENDS Integers
VARIABLES x, y
Init == x = 0 /\ y = 0
Next == x' > x /\ x' \in 1..9 /\ y' = x'
====
