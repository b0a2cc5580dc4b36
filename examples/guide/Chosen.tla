---- MODULE Chosen ----
EXTENDS Integers
CONSTANT NoValue
VARIABLE x
Init == x = NoValue
Next == x' \in 0..9
====
