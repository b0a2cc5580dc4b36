--------------------------- MODULE SingleLaneBridge ---------------------------
(* Cars from both sides come to a bridge that has one lane. They wait before it, and enter it in the order in which they came. *)
EXTENDS Naturals, FiniteSets, Sequences

CONSTANTS CarsRight,  \* the cars that come from the right
          CarsLeft,   \* those that come from the left
          Bridge,     \* the positions on the bridge
          Positions   \* all positions

VARIABLES Location,            \* where each car is
          WaitingBeforeBridge  \* the cars that wait, in their order

vars == <<Location, WaitingBeforeBridge>>

RECURSIVE SeqFromSet(_)
SeqFromSet(S) ==
  IF S = {} THEN <<>>
  ELSE LET x == CHOOSE x \in S : TRUE
       IN  <<x>> \o SeqFromSet(S \ {x})

Cars == CarsRight \union CarsLeft
StartPosition == CHOOSE p \in Positions : \A q \in Positions : p <= q
EndPosition == CHOOSE p \in Positions : \A q \in Positions : p >= q
StartBridge == CHOOSE p \in Bridge : \A q \in Bridge : p <= q
EndBridge == CHOOSE p \in Bridge : \A q \in Bridge : p >= q

ASSUME Positions \subseteq Nat
ASSUME Bridge \subseteq Positions
ASSUME CarsRight \cap CarsLeft = {}
ASSUME StartPosition < StartBridge /\ EndBridge < EndPosition

CarsInBridge == {c \in Cars : Location[c] \in Bridge}
CarsBeforeBridge ==
  {c \in CarsRight : Location[c] = EndBridge + 1} \union {c \in CarsLeft : Location[c] = StartBridge - 1}

ArrivalOrder == SeqFromSet(CarsBeforeBridge)
-----------------------------------------------------------------------------
\* Behind the last position a car begins anew at its first.
RightToLeft(p) == IF p = StartPosition THEN EndPosition ELSE p - 1
LeftToRight(p) == IF p = EndPosition THEN StartPosition ELSE p + 1
NextLocation(car) == IF car \in CarsRight THEN RightToLeft(Location[car]) ELSE LeftToRight(Location[car])

ChangeLocation(car) ==
  /\ IF \/ car \in CarsRight /\ NextLocation(car) = EndBridge + 1
        \/ car \in CarsLeft /\ NextLocation(car) = StartBridge - 1
     THEN WaitingBeforeBridge' = Append(WaitingBeforeBridge, car)
     ELSE UNCHANGED WaitingBeforeBridge
  /\ Location' = [Location EXCEPT ![car] = NextLocation(car)]

SameDirection(c, d) == (c \in CarsRight) = (d \in CarsRight)

MoveOutsideBridge(car) ==
  /\ Location[car] \notin Bridge
  /\ NextLocation(car) \notin Bridge
  /\ ChangeLocation(car)

MoveInsideBridge(car) ==
  /\ car \in CarsInBridge
  /\ \A c \in CarsInBridge : Location[c] # NextLocation(car)
  /\ ChangeLocation(car)

EnterBridge ==
  /\ WaitingBeforeBridge # <<>>
  /\ LET car == Head(WaitingBeforeBridge)
     IN  /\ \A c \in CarsInBridge : SameDirection(c, car)
         /\ \A c \in CarsInBridge : Location[c] # NextLocation(car)
         /\ Location' = [Location EXCEPT ![car] = NextLocation(car)]
         /\ WaitingBeforeBridge' = Tail(WaitingBeforeBridge)
-----------------------------------------------------------------------------
Init ==
  /\ Location = [c \in Cars |-> IF c \in CarsRight THEN EndPosition ELSE StartPosition]
  /\ WaitingBeforeBridge = <<>>

Next ==
  \/ EnterBridge
  \/ \E car \in Cars : MoveOutsideBridge(car) \/ MoveInsideBridge(car)

Fairness ==
  /\ \A car \in Cars : WF_vars(MoveOutsideBridge(car))
  /\ \A car \in Cars : WF_vars(MoveInsideBridge(car))
  /\ WF_vars(EnterBridge)

Spec == Init /\ [][Next]_vars /\ Fairness
-----------------------------------------------------------------------------
TypeOK ==
  /\ Location \in [Cars -> Positions]
  /\ WaitingBeforeBridge \in Seq(Cars)

\* Cars on the bridge go the same way, and no two are at one place there.
Invariants ==
  /\ \A a, b \in CarsInBridge : SameDirection(a, b)
  /\ \A a, b \in CarsInBridge : Location[a] = Location[b] => a = b
  /\ Len(WaitingBeforeBridge) = Len(ArrivalOrder)

CarsEnterBridge == \A car \in Cars : Location[car] \notin Bridge ~> Location[car] \in Bridge
CarsLeaveBridge == \A car \in Cars : Location[car] \in Bridge ~> Location[car] \notin Bridge

THEOREM Spec => [](TypeOK /\ Invariants) /\ CarsEnterBridge /\ CarsLeaveBridge
=============================================================================
