---- MODULE FunctionTheorems ----
EXTENDS Functions, Integers
====
