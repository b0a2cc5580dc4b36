-------------------------------- MODULE FIFO --------------------------------
(* A queue between a sender and a receiver, with a channel on each side. After Lamport, "Specifying Systems"; the steps of a channel are written out here. *)
EXTENDS Naturals, Sequences

CONSTANT Message  \* what may be sent

VARIABLES in,   \* the channel from the sender to the queue
          out,  \* that from the queue to the receiver
          q     \* the messages that came and were not sent on

vars == <<in, out, q>>

(* A channel holds a value; it is free where both bits are equal. *)
Channel == [val : Message, rdy : {0, 1}, ack : {0, 1}]

Free(c) == c.rdy = c.ack

Sent(c, m) == [c EXCEPT !.val = m, !.rdy = 1 - @]

Received(c) == [c EXCEPT !.ack = 1 - @]

TypeInvariant == /\ in \in Channel
                 /\ out \in Channel
                 /\ q \in Seq(Message)

Init == /\ in \in Channel /\ Free(in)
        /\ out \in Channel /\ Free(out)
        /\ q = <<>>

SSend(m) == /\ Free(in)
            /\ in' = Sent(in, m)
            /\ UNCHANGED <<out, q>>

BufRcv == /\ ~Free(in)
          /\ in' = Received(in)
          /\ q' = Append(q, in.val)
          /\ UNCHANGED out

BufSend == /\ q # <<>>
           /\ Free(out)
           /\ out' = Sent(out, Head(q))
           /\ q' = Tail(q)
           /\ UNCHANGED in

RRcv == /\ ~Free(out)
        /\ out' = Received(out)
        /\ UNCHANGED <<in, q>>

Next == \/ \E m \in Message : SSend(m)
        \/ BufRcv
        \/ BufSend
        \/ RRcv

Spec == Init /\ [][Next]_vars

(* The queue of a search has at most so many messages. *)
qConstraint == Len(q) <= 3

THEOREM Spec => []TypeInvariant
=============================================================================
