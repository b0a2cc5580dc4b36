---- MODULE Choose ----
EXTENDS Integers
NoValue == CHOOSE v : v \notin 0..9
VARIABLE x
Init == x = NoValue
Next == x' \in 0..9
====
