------------------------------- MODULE MCVoting -------------------------------
(* Three acceptors and two ballots, for Voting. *)
EXTENDS Voting, TLC

CONSTANTS a1, a2, a3

MCAcceptor == {a1, a2, a3}
MCQuorum == {{a1, a2}, {a1, a3}, {a2, a3}}
MCBallot == 0 .. 1

MCSymmetry == Permutations(MCAcceptor) \cup Permutations(Value)
===============================================================================
