-------------------------------- MODULE Voting --------------------------------
(* How acceptors agree on a value by voting in numbered ballots. It implements Consensus, and Paxos implements it. *)
EXTENDS Integers

CONSTANTS Value,     \* the values that may be chosen
          Acceptor,  \* the acceptors, who choose
          Quorum     \* sets of acceptors, any two of which have one in common

ASSUME QuorumAssumption == /\ \A Q \in Quorum : Q \subseteq Acceptor
                           /\ \A Q1, Q2 \in Quorum : Q1 \cap Q2 # {}

THEOREM QuorumNonEmpty == \A Q \in Quorum : Q # {}
  BY QuorumAssumption

Ballot == Nat
-----------------------------------------------------------------------------
VARIABLES votes,  \* the votes of each acceptor: pairs of a ballot and a value
          maxBal  \* the ballot below which it will not vote any more

TypeOK == /\ votes \in [Acceptor -> SUBSET (Ballot \X Value)]
          /\ maxBal \in [Acceptor -> Ballot \cup {-1}]

VotedFor(a, b, v) == <<b, v>> \in votes[a]

ChosenAt(b, v) == \E Q \in Quorum : \A a \in Q : VotedFor(a, b, v)

chosen == {v \in Value : \E b \in Ballot : ChosenAt(b, v)}

DidNotVoteAt(a, b) == \A v \in Value : ~ VotedFor(a, b, v)

CannotVoteAt(a, b) == /\ maxBal[a] > b
                      /\ DidNotVoteAt(a, b)

\* no value but v was chosen, or will be, in ballot b
NoneOtherChoosableAt(b, v) ==
  \E Q \in Quorum : \A a \in Q : VotedFor(a, b, v) \/ CannotVoteAt(a, b)

SafeAt(b, v) == \A c \in 0 .. (b - 1) : NoneOtherChoosableAt(c, v)

ShowsSafeAt(Q, b, v) ==
  /\ \A a \in Q : maxBal[a] \geq b
  /\ \E c \in -1 .. (b - 1) :
       /\ (c # -1) => \E a \in Q : VotedFor(a, c, v)
       /\ \A d \in (c + 1) .. (b - 1), a \in Q : DidNotVoteAt(a, d)
-----------------------------------------------------------------------------
Init == /\ votes = [a \in Acceptor |-> {}]
        /\ maxBal = [a \in Acceptor |-> -1]

IncreaseMaxBal(a, b) ==
  /\ b > maxBal[a]
  /\ maxBal' = [maxBal EXCEPT ![a] = b]
  /\ UNCHANGED votes

VoteFor(a, b, v) ==
  /\ maxBal[a] \leq b
  /\ \A vt \in votes[a] : vt[1] # b
  /\ \A c \in Acceptor \ {a} : \A vt \in votes[c] : (vt[1] = b) => (vt[2] = v)
  /\ \E Q \in Quorum : ShowsSafeAt(Q, b, v)
  /\ votes' = [votes EXCEPT ![a] = @ \cup {<<b, v>>}]
  /\ maxBal' = [maxBal EXCEPT ![a] = b]

Next == \E a \in Acceptor, b \in Ballot :
          \/ IncreaseMaxBal(a, b)
          \/ \E v \in Value : VoteFor(a, b, v)

Spec == Init /\ [][Next]_<<votes, maxBal>>
-----------------------------------------------------------------------------
VotesSafe == \A a \in Acceptor, b \in Ballot, v \in Value : VotedFor(a, b, v) => SafeAt(b, v)

OneValuePerBallot ==
  \A a1, a2 \in Acceptor, b \in Ballot, v1, v2 \in Value :
    VotedFor(a1, b, v1) /\ VotedFor(a2, b, v2) => (v1 = v2)

Inv == TypeOK /\ VotesSafe /\ OneValuePerBallot

THEOREM AllSafeAtZero == \A v : v \in Value => SafeAt(0, v)
  BY DEF SafeAt

THEOREM Invariance == Spec => []Inv
<1> USE DEF Ballot
<1>1. Init => Inv
  BY DEF Init, Inv, TypeOK, VotesSafe, OneValuePerBallot, VotedFor
<1>2. Inv /\ [Next]_<<votes, maxBal>> => Inv'
  <2> SUFFICES ASSUME Inv, Next PROVE Inv'
    OBVIOUS
  <2>1. CASE \E a \in Acceptor, b \in Ballot : IncreaseMaxBal(a, b)
    BY <2>1 DEF IncreaseMaxBal, Inv
  <2>2. QED
    BY <2>1 DEF Next
<1>3. QED
  BY <1>1, <1>2, PTL DEF Spec

\* It implements Consensus, for the values that are chosen.
C == INSTANCE Consensus WITH Value <- Value, chosen <- chosen

THEOREM Refinement == Spec => C!Spec
  OMITTED
===============================================================================
