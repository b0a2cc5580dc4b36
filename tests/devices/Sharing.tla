------------------------------- MODULE Sharing -------------------------------
(* Values of each form, kept in old and then changed: what was kept stays as  *)
(* it was. The change makes a sequence of a function that was none. A set of  *)
(* functions of each form is printed in its order.                            *)
EXTENDS Integers, Sequences, TLC
VARIABLES list, record, pairs, old, order

Init ==
  /\ list = <<1, 2>>
  /\ record = [a |-> 1, b |-> {1}]
  /\ pairs = (2 :> 4) @@ (3 :> 3)
  /\ old = <<>>
  /\ order = {<<6>>, [a |-> 1], <<>>, (1 :> 5) @@ ("a" :> 0), <<5, 1>>,
               0 :> 9, <<5>>, (2 :> 1) @@ (1 :> 5)}

Keep ==
  /\ old = <<>>
  /\ old' = <<list, record, pairs>>
  /\ UNCHANGED <<list, record, pairs, order>>

Change ==
  /\ old # <<>>
  /\ list' = Append([list EXCEPT ![1] = 7], 3)
  /\ record' = [record EXCEPT !.a = 2, !.b = @ \cup {5}]
  /\ pairs' = [pairs EXCEPT ![3] = 0] @@ (1 :> 9)
  /\ UNCHANGED <<old, order>>

Next == Keep \/ Change
==============================================================================
