----------------------------- MODULE RingBuffer -----------------------------
(* A ring of slots. Who reads and who writes each slot is kept too, so that data races can be seen. *)
LOCAL INSTANCE Integers
LOCAL INSTANCE FiniteSets

CONSTANTS
  Size,      (* how many slots there are *)
  Readers,
  Writers,
  NULL

VARIABLE ringbuffer

LastIndex == Size - 1

Init ==
  ringbuffer =
    [
      slots   |-> [i \in 0 .. LastIndex |-> NULL],
      readers |-> [i \in 0 .. LastIndex |-> {}],
      writers |-> [i \in 0 .. LastIndex |-> {}]
    ]

(* The slot of a sequence number. *)
IndexOf(sequence) ==
  sequence % Size

Write(index, writer, value) ==
  ringbuffer' = [
    ringbuffer EXCEPT
      !.writers[index] = @ \union {writer},
      !.slots[index]   = value
  ]

EndWrite(index, writer) ==
  ringbuffer' = [ringbuffer EXCEPT !.writers[index] = @ \ {writer}]

BeginRead(index, reader) ==
  ringbuffer' = [ringbuffer EXCEPT !.readers[index] = @ \union {reader}]

Read(index) ==
  ringbuffer.slots[index]

EndRead(index, reader) ==
  ringbuffer' = [ringbuffer EXCEPT !.readers[index] = @ \ {reader}]

TypeOk ==
  ringbuffer \in [
    slots:   [0 .. LastIndex -> Int \union {NULL}],
    readers: [0 .. LastIndex -> SUBSET(Readers)],
    writers: [0 .. LastIndex -> SUBSET(Writers)]
  ]

(* Nobody reads a slot that is written, and one alone writes it. *)
NoDataRaces ==
  \A i \in 0 .. LastIndex :
    /\ ringbuffer.readers[i] = {} \/ ringbuffer.writers[i] = {}
    /\ Cardinality(ringbuffer.writers[i]) <= 1
=============================================================================
