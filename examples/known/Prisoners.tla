------------------------------ MODULE Prisoners ------------------------------
(* Prisoners are led one by one into a room with two switches. One of them, the counter, is to find out when all have been there. The others put switch A
   up, twice each at most; the counter puts it down and counts. Switch B is for who has nothing else to do. *)
EXTENDS Naturals, FiniteSets

CONSTANTS Prisoner, Counter

ASSUME /\ Counter \in Prisoner
       /\ Cardinality(Prisoner) > 1

OtherPrisoner == Prisoner \ {Counter}

VARIABLES switchAUp, switchBUp,
          timesSwitched,  \* how often each of the others has put switch A up
          count           \* how often the counter has put it down

vars == <<switchAUp, switchBUp, timesSwitched, count>>

TypeOK ==
  /\ switchAUp \in BOOLEAN
  /\ switchBUp \in BOOLEAN
  /\ timesSwitched \in [OtherPrisoner -> 0..2]
  /\ count \in 0 .. (2 * Cardinality(Prisoner) - 1)

Init ==
  /\ switchAUp \in BOOLEAN
  /\ switchBUp \in BOOLEAN
  /\ timesSwitched = [i \in OtherPrisoner |-> 0]
  /\ count = 0

NonCounterStep(i) ==
  /\ IF (~ switchAUp) /\ (timesSwitched[i] < 2)
       THEN /\ switchAUp' = TRUE
            /\ timesSwitched' = [timesSwitched EXCEPT ![i] = @ + 1]
            /\ UNCHANGED switchBUp
       ELSE /\ switchBUp' = ~ switchBUp
            /\ UNCHANGED <<switchAUp, timesSwitched>>
  /\ UNCHANGED count

CounterStep ==
  /\ IF switchAUp
       THEN /\ switchAUp' = FALSE
            /\ UNCHANGED switchBUp
            /\ count' = count + 1
       ELSE /\ switchBUp' = ~ switchBUp
            /\ UNCHANGED <<switchAUp, count>>
  /\ UNCHANGED timesSwitched

Next == \/ CounterStep
        \/ \E i \in OtherPrisoner : NonCounterStep(i)

Fairness == /\ WF_vars(CounterStep)
            /\ \A i \in OtherPrisoner : WF_vars(NonCounterStep(i))

Spec == Init /\ [][Next]_vars /\ Fairness
-----------------------------------------------------------------------------
Done == count = 2 * Cardinality(Prisoner) - 1

\* When the counter has counted enough all have been there.
Safety == [](Done => (\A i \in Prisoner \ {Counter} : timesSwitched[i] > 0))

Liveness == <>Done

\* The counter has counted what was switched, but for one that it has not seen yet, and for the one with which it began.
CountInvariant ==
  LET totalSwitched ==
        LET sum[S \in SUBSET OtherPrisoner] ==
              IF S = {} THEN 0
                        ELSE LET p == CHOOSE pr \in S : TRUE
                             IN  timesSwitched[p] + sum[S \ {p}]
        IN  sum[OtherPrisoner]
      oneIfUp == IF switchAUp THEN 1 ELSE 0
  IN  count \in {totalSwitched - oneIfUp, totalSwitched - oneIfUp + 1}

THEOREM Spec => Safety /\ Liveness /\ []CountInvariant
=============================================================================
