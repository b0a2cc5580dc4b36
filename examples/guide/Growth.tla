---- MODULE Growth ----
EXTENDS Integers
VARIABLE x
Init == x = 0
Next == x' \in 1..9
Grew == x' > x
Grown == Next /\ x' > x
====
