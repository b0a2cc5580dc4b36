---- MODULE Last ----
EXTENDS Integers
VARIABLE x
Init == x = 9223372036854775807
Next == x' = x + 1
====
