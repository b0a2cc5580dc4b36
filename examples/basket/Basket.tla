---- MODULE Basket ----
EXTENDS Integers, FiniteSets
VARIABLES prices, paid

Goods == {"apple", "bread", "milk"}
Purse == 12

RECURSIVE SumOver(_, _)
SumOver(f, S) == IF S = {} THEN 0
                 ELSE LET g == CHOOSE g \in S : TRUE
                      IN f[g] + SumOver(f, S \ {g})
Total == SumOver(prices, DOMAIN prices)

Empty == [g \in Goods |-> 0]
Init == prices = Empty /\ paid = 0
Put == /\ \E g \in Goods, p \in 1..9 : prices' = [prices EXCEPT ![g] = p]
       /\ UNCHANGED paid
Pay == /\ Total > 0
       /\ paid + Total <= Purse
       /\ paid' = paid + Total
       /\ prices' = Empty
Next == Put \/ Pay
====
