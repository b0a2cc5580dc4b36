------------------------------- MODULE ABSpec -------------------------------
(* What the alternating bit protocol is to do: A sends values to B, one after the other. *)
EXTENDS Integers

CONSTANT Data  \* the values that A may send

VARIABLES AVar,  \* the last value, with its bit, that A decided to send
          BVar   \* the last value, with its bit, that B received

vars == <<AVar, BVar>>

TypeOK == /\ AVar \in Data \X {0, 1}
          /\ BVar \in Data \X {0, 1}

Init == /\ AVar \in Data \X {1}
        /\ BVar = AVar

A == /\ AVar = BVar
     /\ \E d \in Data : AVar' = <<d, 1 - AVar[2]>>
     /\ BVar' = BVar

B == /\ AVar # BVar
     /\ BVar' = AVar
     /\ AVar' = AVar

Next == A \/ B

Spec == Init /\ [][Next]_vars

Inv == (AVar[2] = BVar[2]) => (AVar = BVar)

FairSpec == Spec /\ WF_vars(Next)
=============================================================================
