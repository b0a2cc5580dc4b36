---- MODULE Relay ----
EXTENDS Sequences
CONSTANT Message
VARIABLES left, right, queue

In == INSTANCE Channel WITH chan <- left, Data <- Message
Out == INSTANCE Channel WITH chan <- right, Data <- Message

Init == In!Init /\ Out!Init /\ queue = <<>>
Send(m) == In!Send(m) /\ UNCHANGED <<right, queue>>
Take == In!Receive /\ queue' = Append(queue, left.val) /\ UNCHANGED right
Give == /\ queue # <<>>
        /\ Out!Send(Head(queue))
        /\ queue' = Tail(queue)
        /\ UNCHANGED left
Receive == Out!Receive /\ UNCHANGED <<left, queue>>
Next == (\E m \in Message : Send(m)) \/ Take \/ Give \/ Receive
====
