---- MODULE Channel ----
EXTENDS Integers
CONSTANT Data
VARIABLE chan

Init == chan \in [val : Data, rdy : {0, 1}, ack : {0, 1}] /\ chan.rdy = chan.ack
Send(d) == /\ chan.rdy = chan.ack
           /\ chan' = [chan EXCEPT !.val = d, !.rdy = 1 - @]
Receive == /\ chan.rdy # chan.ack
           /\ chan' = [chan EXCEPT !.ack = 1 - @]
====
