---------------------- MODULE DistributedReplicatedLog ----------------------
(* A log of which each server has a copy: the longest one is extended, and the others are copied from longer ones, so that none falls too far behind. *)
EXTENDS Sequences, SequencesExt, Integers, FiniteSets, FiniteSetsExt

CONSTANTS Lag, Servers, Values

ASSUME Lag \in Nat /\ IsFiniteSet(Servers)

VARIABLE cLogs

vars == <<cLogs>>

TypeOK ==
  /\ DOMAIN cLogs = Servers
  /\ \A s \in Servers : cLogs[s] \in Seq(Values)
-----------------------------------------------------------------------------
Init == cLogs \in [Servers -> {<<>>}]

Copy(i) ==
  \E j \in Servers :
    /\ Len(cLogs[j]) > Len(cLogs[i])
    /\ \E l \in 1 .. (Len(cLogs[j]) - Len(cLogs[i])) :
         cLogs' = [cLogs EXCEPT ![i] = @ \o SubSeq(cLogs[j], Len(@) + 1, Len(@) + l)]

Extend(i) ==
  /\ \A j \in Servers : Len(cLogs[j]) \leq Len(cLogs[i])
  /\ \E s \in BoundedSeq(Values, Lag - Max({Len(cLogs[i]) - Len(cLogs[j]) : j \in Servers})) :
       cLogs' = [cLogs EXCEPT ![i] = @ \o s]

Next == \E i \in Servers : Copy(i) \/ Extend(i)

Spec ==
  /\ Init
  /\ [][Next]_vars
  /\ \A s \in Servers : WF_vars(Extend(s)) /\ WF_vars(Copy(s))
-----------------------------------------------------------------------------
BoundedLag ==
  \A i, j \in Servers : Len(cLogs[i]) - Len(cLogs[j]) <= Lag

Consistent ==
  \A i, j \in Servers : IsPrefix(cLogs[i], cLogs[j]) \/ IsPrefix(cLogs[j], cLogs[i])

AllExtending ==
  \A s \in Servers : []<><<IsStrictPrefix(cLogs[s], cLogs'[s])>>_vars

InSync ==
  []<>(\A i, j \in Servers : cLogs[i] = cLogs[j])
=============================================================================
