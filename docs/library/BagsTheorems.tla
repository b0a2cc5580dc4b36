---- MODULE BagsTheorems ----
EXTENDS Bags, FiniteSetTheorems
====
