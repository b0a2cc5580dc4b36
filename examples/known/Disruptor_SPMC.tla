--------------------------- MODULE Disruptor_SPMC ---------------------------
(* A ring buffer with one producer, which publishes 0, 1, 2 .., and with consumers that read each of them. *)
EXTENDS Integers, FiniteSets, Sequences

CONSTANTS
  MaxPublished,  (* bounds the search *)
  Writers,
  Readers,
  Size,
  NULL

ASSUME Writers /= {}
ASSUME Readers /= {}
ASSUME Size         \in Nat \ {0}
ASSUME MaxPublished \in Nat \ {0}

VARIABLES
  ringbuffer,
  published,     (* the producer's cursor *)
  read,          (* the cursor of each consumer *)
  consumed,      (* what each consumer has read *)
  pc

vars == <<ringbuffer, published, read, consumed, pc>>

(* Whoever produces or consumes has access to a slot, or goes on to the next. *)
Access  == "Access"
Advance == "Advance"

Transition(t, from, to) ==
  /\ pc[t] = from
  /\ pc'   = [pc EXCEPT ![t] = to]

Buffer == INSTANCE RingBuffer

Range(f) ==
  {f[x] : x \in DOMAIN(f)}

MinReadSequence ==
  CHOOSE min \in Range(read) : \A r \in Readers : min <= read[r]
-----------------------------------------------------------------------------
BeginWrite(writer) ==
  LET
    seq      == published + 1
    index    == Buffer!IndexOf(seq)
    min_read == MinReadSequence
  IN
    \* no consumer is a whole turn behind
    /\ min_read >= seq - Size
    /\ Transition(writer, Access, Advance)
    /\ Buffer!Write(index, writer, seq)
    /\ UNCHANGED <<consumed, published, read>>

EndWrite(writer) ==
  LET
    seq   == published + 1
    index == Buffer!IndexOf(seq)
  IN
    /\ Transition(writer, Advance, Access)
    /\ Buffer!EndWrite(index, writer)
    /\ published' = seq
    /\ UNCHANGED <<consumed, read>>

BeginRead(reader) ==
  LET
    next  == read[reader] + 1
    index == Buffer!IndexOf(next)
  IN
    /\ published >= next
    /\ Transition(reader, Access, Advance)
    /\ Buffer!BeginRead(index, reader)
    /\ consumed' = [consumed EXCEPT ![reader] = Append(@, Buffer!Read(index))]
    /\ UNCHANGED <<published, read>>

EndRead(reader) ==
  LET
    next  == read[reader] + 1
    index == Buffer!IndexOf(next)
  IN
    /\ Transition(reader, Advance, Access)
    /\ Buffer!EndRead(index, reader)
    /\ read' = [read EXCEPT ![reader] = next]
    /\ UNCHANGED <<consumed, published>>
-----------------------------------------------------------------------------
Init ==
  /\ Buffer!Init
  /\ published = -1
  /\ read      = [r \in Readers |-> -1]
  /\ consumed  = [r \in Readers |-> << >>]
  /\ pc        = [a \in Writers \union Readers |-> Access]

Next ==
  \/ \E w \in Writers : BeginWrite(w)
  \/ \E w \in Writers : EndWrite(w)
  \/ \E r \in Readers : BeginRead(r)
  \/ \E r \in Readers : EndRead(r)

Fairness ==
  /\ \A r \in Readers : WF_vars(BeginRead(r))
  /\ \A r \in Readers : WF_vars(EndRead(r))

Spec ==
  Init /\ [][Next]_vars /\ Fairness
-----------------------------------------------------------------------------
StateConstraint ==
  published < MaxPublished

TypeOk ==
  /\ Buffer!TypeOk
  /\ published \in Int
  /\ read      \in [Readers -> Int]
  /\ consumed  \in [Readers -> Seq(Nat)]
  /\ pc        \in [Writers \union Readers -> {Access, Advance}]

NoDataRaces == Buffer!NoDataRaces

(* In the end each consumer has read all that was published. *)
Liveness ==
  \A r \in Readers : \A i \in 0 .. (MaxPublished - 1) :
    <>[](i \in 0 .. published => Len(consumed[r]) >= i + 1 /\ consumed[r][i + 1] = i)
=============================================================================
