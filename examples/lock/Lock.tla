-------------------------------- MODULE Lock --------------------------------
(* A ticket lock: a process draws a ticket, waits until its number is        *)
(* served, works, and hands the lock to the next number. Numbers wrap around *)
(* at Size, which is at least the number of processes, and begin anywhere.   *)
EXTENDS Integers, FiniteSets
CONSTANTS Processes, Size
VARIABLES drawn, serving, ticket, at

vars == <<drawn, serving, ticket, at>>

ASSUME Cardinality(Processes) <= Size

TypeOK ==
  /\ drawn \in 0..(Size - 1)
  /\ serving \in 0..(Size - 1)
  /\ ticket \in [Processes -> 0..(Size - 1)]
  /\ at \in [Processes -> {"idle", "waiting", "inside"}]

Exclusion == Cardinality({p \in Processes : at[p] = "inside"}) <= 1

Init ==
  /\ drawn \in 0..(Size - 1)
  /\ serving = drawn
  /\ ticket = [p \in Processes |-> 0]
  /\ at = [p \in Processes |-> "idle"]

Draw(p) ==
  /\ at[p] = "idle"
  /\ at' = [at EXCEPT ![p] = "waiting"]
  /\ ticket' = [ticket EXCEPT ![p] = drawn]
  /\ drawn' = (drawn + 1) % Size
  /\ UNCHANGED serving

Enter(p) ==
  /\ at[p] = "waiting"
  /\ ticket[p] = serving
  /\ at' = [at EXCEPT ![p] = "inside"]
  /\ UNCHANGED <<drawn, serving, ticket>>

Leave(p) ==
  /\ at[p] = "inside"
  /\ at' = [at EXCEPT ![p] = "idle"]
  /\ serving' = (serving + 1) % Size
  /\ UNCHANGED <<drawn, ticket>>

Next == \E p \in Processes : Draw(p) \/ Enter(p) \/ Leave(p)

Spec == Init /\ [][Next]_vars
-----------------------------------------------------------------------------
(* The step that no log tells of.                                            *)
AnyDraw == \E p \in Processes : Draw(p)
=============================================================================
