---- MODULE Sums ----
EXTENDS Integers
Plus(a, b) == a + b
====
