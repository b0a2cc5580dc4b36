------------------------------ MODULE CoffeeCan ------------------------------
(* Two beans are taken out of a can and one is put back: a black one if they are alike, else the white one. The last bean's color is told at first. *)
EXTENDS Naturals

CONSTANT MaxBeanCount

ASSUME MaxBeanCount \in Nat /\ MaxBeanCount >= 1

VARIABLES can

vars == <<can>>

Can == [black : 0 .. MaxBeanCount, white : 0 .. MaxBeanCount]

TypeInvariant == can \in Can

Init == can \in {c \in Can : c.black + c.white \in 1 .. MaxBeanCount}

BeanCount == can.black + can.white

PickSameColorBlack ==
  /\ BeanCount > 1
  /\ can.black >= 2
  /\ can' = [can EXCEPT !.black = @ - 1]

PickSameColorWhite ==
  /\ BeanCount > 1
  /\ can.white >= 2
  /\ can' = [can EXCEPT !.black = @ + 1, !.white = @ - 2]

PickDifferentColor ==
  /\ BeanCount > 1
  /\ can.black >= 1
  /\ can.white >= 1
  /\ can' = [can EXCEPT !.black = @ - 1]

Termination ==
  /\ BeanCount = 1
  /\ UNCHANGED can

Next ==
  \/ PickSameColorWhite
  \/ PickSameColorBlack
  \/ PickDifferentColor
  \/ Termination
-----------------------------------------------------------------------------
MonotonicDecrease == [][BeanCount' < BeanCount]_can

EventuallyTerminates == <>(ENABLED Termination)

LoopInvariant == [][can.white % 2 = 0 <=> can'.white % 2 = 0]_can

TerminationHypothesis ==
  IF can.white % 2 = 0
    THEN <>(can.black = 1 /\ can.white = 0)
    ELSE <>(can.black = 0 /\ can.white = 1)

Spec ==
  /\ Init
  /\ [][Next]_vars
  /\ WF_vars(Next)

THEOREM Spec =>
  /\ TypeInvariant
  /\ MonotonicDecrease
  /\ EventuallyTerminates
  /\ LoopInvariant
  /\ TerminationHypothesis
=============================================================================
