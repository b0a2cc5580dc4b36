---- MODULE Any ----
EXTENDS Integers
VARIABLE x
Init == x = 0
Next == x' \in Nat
====
