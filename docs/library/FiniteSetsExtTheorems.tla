---- MODULE FiniteSetsExtTheorems ----
EXTENDS FiniteSetsExt, FiniteSetTheorems
====
