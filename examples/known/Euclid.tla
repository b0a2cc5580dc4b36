-------------------------------- MODULE Euclid --------------------------------
(* Euclid's algorithm: subtracts the smaller of two numbers from the larger until one is 0. *)
EXTENDS Naturals, TLC

CONSTANT N

GCD(x, y) == CHOOSE i \in 1 .. N : /\ x % i = 0
                                   /\ y % i = 0
                                   /\ \A j \in 1 .. N : /\ x % j = 0
                                                        /\ y % j = 0
                                                        => i >= j

(***************************************************************************
--algorithm EuclidAlg {
  variables u = 24 ; v \in 1 .. N ; v_ini = v ;
  { while (u # 0) {
      if (u < v) { u := v || v := u } ;
      u := u - v } ;
    print <<"gcd of 24 and ", v_ini, " is ", v>> ;
    assert v = GCD(24, v_ini) } }
***************************************************************************)
\* BEGIN TRANSLATION
VARIABLES u, v, v_ini, pc

vars == << u, v, v_ini, pc >>

Init == (* Global variables *)
        /\ u = 24
        /\ v \in 1 .. N
        /\ v_ini = v
        /\ pc = "Lbl_1"

Lbl_1 == /\ pc = "Lbl_1"
         /\ IF u # 0
               THEN /\ IF u < v
                          THEN /\ /\ u' = v
                                  /\ v' = u
                          ELSE /\ TRUE
                               /\ UNCHANGED << u, v >>
                    /\ pc' = "Lbl_2"
               ELSE /\ PrintT(<<"gcd of 24 and ", v_ini, " is ", v>>)
                    /\ Assert(v = GCD(24, v_ini),
                              "Failure of assertion at line 18, column 5.")
                    /\ pc' = "Done"
                    /\ UNCHANGED << u, v >>
         /\ v_ini' = v_ini

Lbl_2 == /\ pc = "Lbl_2"
         /\ u' = u - v
         /\ pc' = "Lbl_1"
         /\ UNCHANGED << v, v_ini >>

(* Allow infinite stuttering to prevent deadlock on termination. *)
Terminating == pc = "Done" /\ UNCHANGED vars

Next == Lbl_1 \/ Lbl_2
           \/ Terminating

Spec == Init /\ [][Next]_vars

Termination == <>(pc = "Done")
\* END TRANSLATION
=============================================================================
