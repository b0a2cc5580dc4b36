------------------------------- MODULE Queue -------------------------------
(* A bounded queue: producers append items, one consumer takes the first.   *)
EXTENDS Integers, Sequences
CONSTANTS Producers, Bound, Most
VARIABLES buffer, made, taken

vars == <<buffer, made, taken>>

Item == [from : Producers, number : 1..Most]

TypeOK ==
  /\ buffer \in Seq(Item) /\ Len(buffer) <= Bound
  /\ made \in [Producers -> 0..Most]
  /\ taken \in Seq(Item)

Init ==
  /\ buffer = <<>>
  /\ made = [p \in Producers |-> 0]
  /\ taken = <<>>

Put(p) ==
  /\ Len(buffer) < Bound
  /\ made[p] < Most
  /\ buffer' = Append(buffer, [from |-> p, number |-> made[p] + 1])
  /\ made' = [made EXCEPT ![p] = @ + 1]
  /\ UNCHANGED taken

Take ==
  /\ buffer # <<>>
  /\ taken' = Append(taken, Head(buffer))
  /\ buffer' = Tail(buffer)
  /\ UNCHANGED made

Next == Take \/ \E p \in Producers : Put(p)

Spec == Init /\ [][Next]_vars
----------------------------------------------------------------------------
(* What the logs tell of a step. TLC needs none of this.                    *)

\* Producer p put an item, and then the queue had n items.
Enqueued(p, n) == Put(p) /\ Len(buffer') = n

\* The consumer took this item.
Dequeued(item) == Take /\ Head(buffer) = item
============================================================================
