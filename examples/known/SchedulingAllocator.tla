------------------------- MODULE SchedulingAllocator -------------------------
(* An allocator that serves clients in the order of a schedule. Nobody gets a resource for which somebody before him waits. *)
EXTENDS FiniteSets, Sequences, Naturals, TLC

CONSTANTS Clients, Resources

ASSUME IsFiniteSet(Resources)

VARIABLES unsat,  \* what each client waits for
          alloc,  \* what each client has
          sched   \* the clients in the order in which they are served

vars == <<unsat, alloc, sched>>

TypeInvariant ==
  /\ unsat \in [Clients -> SUBSET Resources]
  /\ alloc \in [Clients -> SUBSET Resources]
  /\ sched \in Seq(Clients)
-----------------------------------------------------------------------------
\* the members of S in all orders, as sequences
PermSeqs(S) ==
  {sq \in [1 .. Cardinality(S) -> S] : \A i, j \in 1 .. Cardinality(S) : i # j => sq[i] # sq[j]}

Range(f) == {f[x] : x \in DOMAIN f}

Drop(seq, i) == SubSeq(seq, 1, i - 1) \circ SubSeq(seq, i + 1, Len(seq))

available == Resources \ (UNION {alloc[c] : c \in Clients})

toSchedule == {c \in Clients : unsat[c] # {} /\ c \notin Range(sched)}
-----------------------------------------------------------------------------
Init ==
  /\ unsat = [c \in Clients |-> {}]
  /\ alloc = [c \in Clients |-> {}]
  /\ sched = <<>>

Request(c, S) ==
  /\ unsat[c] = {} /\ alloc[c] = {}
  /\ S # {} /\ unsat' = [unsat EXCEPT ![c] = S]
  /\ UNCHANGED <<alloc, sched>>

Allocate(c, S) ==
  /\ S # {} /\ S \subseteq available \cap unsat[c]
  /\ \E i \in DOMAIN sched :
       /\ sched[i] = c
       /\ \A j \in 1 .. i - 1 : unsat[sched[j]] \cap S = {}
       /\ sched' = IF S = unsat[c] THEN Drop(sched, i) ELSE sched
  /\ alloc' = [alloc EXCEPT ![c] = @ \cup S]
  /\ unsat' = [unsat EXCEPT ![c] = @ \ S]

Return(c, S) ==
  /\ S # {} /\ S \subseteq alloc[c]
  /\ alloc' = [alloc EXCEPT ![c] = @ \ S]
  /\ UNCHANGED <<unsat, sched>>

\* those who wait and stand in no schedule are put behind it, in any order
Schedule ==
  /\ toSchedule # {}
  /\ \E sq \in PermSeqs(toSchedule) : sched' = sched \circ sq
  /\ UNCHANGED <<unsat, alloc>>

Next ==
  \/ \E c \in Clients, S \in SUBSET Resources : Request(c, S) \/ Allocate(c, S) \/ Return(c, S)
  \/ Schedule
-----------------------------------------------------------------------------
Liveness ==
  /\ \A c \in Clients : WF_vars(unsat[c] = {} /\ Return(c, alloc[c]))
  /\ \A c \in Clients : WF_vars(\E S \in SUBSET Resources : Allocate(c, S))
  /\ WF_vars(Schedule)

Allocator == Init /\ [][Next]_vars /\ Liveness

ResourceMutex == \A c1, c2 \in Clients : c1 # c2 => alloc[c1] \cap alloc[c2] = {}

UnscheduledClients == Clients \ Range(sched)

PrevResources(i) ==
  available
  \cup (UNION {unsat[sched[j]] \cup alloc[sched[j]] : j \in 1 .. i - 1})
  \cup (UNION {alloc[c] : c \in UnscheduledClients})

\* Whoever stands in the schedule will have what he waits for.
AllocatorInvariant ==
  /\ \A c \in toSchedule : alloc[c] = {}
  /\ \A i \in DOMAIN sched : unsat[sched[i]] # {}
  /\ \A i \in DOMAIN sched : \A j \in 1 .. i - 1 :
       alloc[sched[i]] \cap unsat[sched[j]] = {}
  /\ \A i \in DOMAIN sched : unsat[sched[i]] \subseteq PrevResources(i)

ClientsWillReturn == \A c \in Clients : unsat[c] = {} ~> alloc[c] = {}
ClientsWillObtain == \A c \in Clients, r \in Resources : r \in unsat[c] ~> r \in alloc[c]
InfOftenSatisfied == \A c \in Clients : []<>(unsat[c] = {})

Symmetry == Permutations(Clients) \cup Permutations(Resources)

\* It implements the simple allocator, for which the schedule is hidden.
Simple == INSTANCE SimpleAllocator
Refined == \EE hidden : Simple!SimpleAllocator /\ [](hidden = sched)

THEOREM Allocator => [](TypeInvariant /\ ResourceMutex /\ AllocatorInvariant)
THEOREM Allocator => Simple!SimpleAllocator
=============================================================================
