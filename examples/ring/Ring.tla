---- MODULE Ring ----
EXTENDS Integers
VARIABLES holder, done

vars == <<holder, done>>
Nodes == 1..3

Init == holder = 1 /\ done = [n \in Nodes |-> 0]

\* A node works whether it holds the token or not.
Work(n) == done' = [done EXCEPT ![n] = @ + 1] /\ UNCHANGED holder

\* The node that holds the token passes it to the next.
Pass(n) == holder = n /\ holder' = (n % 3) + 1 /\ UNCHANGED done

Next == \E n \in Nodes : Work(n) \/ Pass(n)
====
