---- MODULE Pool ----
(* Clients take connections from a pool, and give them back. *)
EXTENDS Naturals
CONSTANTS Clients, Size
VARIABLES free, holds

Init ==
  /\ free = Size
  /\ holds = [c \in Clients |-> 0]

Take(c) ==
  /\ free > 0
  /\ free' = free - 1
  /\ holds' = [holds EXCEPT ![c] = @ + 1]

Give(c) ==
  /\ holds[c] > 0
  /\ free' = free + 1
  /\ holds' = [holds EXCEPT ![c] = @ - 1]

Next == \E c \in Clients : Take(c) \/ Give(c)

TypeOK == free \in 0..Size
====
