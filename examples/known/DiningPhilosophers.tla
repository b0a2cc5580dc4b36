-------------------------- MODULE DiningPhilosophers --------------------------
(* Chandy's and Misra's dining philosophers: a dirty fork is cleaned and given to the neighbor, and who has two clean ones may eat. *)
INSTANCE Integers
INSTANCE TLC

CONSTANTS
  \* how many philosophers there are
  NP

ASSUME
  /\ NP \in Nat \ {0}

(*--algorithm DiningPhilosophers
variables
  forks = [fork \in 1 .. NP |-> [holder |-> IF fork = 2 THEN 1 ELSE fork, clean |-> FALSE]];
define
  LeftFork(p) == p
  RightFork(p) == IF p = NP THEN 1 ELSE p + 1
  LeftPhilosopher(p) == IF p = 1 THEN NP ELSE p - 1
  RightPhilosopher(p) == IF p = NP THEN 1 ELSE p + 1
  IsHoldingBothForks(p) == forks[LeftFork(p)].holder = p /\ forks[RightFork(p)].holder = p
  BothForksAreClean(p) == forks[LeftFork(p)].clean /\ forks[RightFork(p)].clean
  CanEat(p) == IsHoldingBothForks(p) /\ BothForksAreClean(p)
end define;
fair process Philosopher \in 1 .. NP
variables hungry = TRUE;
begin
Loop:
  while TRUE do
    if forks[LeftFork(self)].holder = self /\ ~forks[LeftFork(self)].clean then
      forks[LeftFork(self)] := [holder |-> LeftPhilosopher(self), clean |-> TRUE];
    elsif forks[RightFork(self)].holder = self /\ ~forks[RightFork(self)].clean then
      forks[RightFork(self)] := [holder |-> RightPhilosopher(self), clean |-> TRUE];
    end if;
Choose:
    if hungry then
      if CanEat(self) then
Eat:
        assert IsHoldingBothForks(self);
        hungry := FALSE;
        forks[LeftFork(self)].clean := FALSE || forks[RightFork(self)].clean := FALSE;
      end if;
    else
Think:
      hungry := TRUE;
    end if;
  end while;
end process;
end algorithm; *)
\* BEGIN TRANSLATION
VARIABLES forks, pc

(* define statement *)
LeftFork(p) == p
RightFork(p) == IF p = NP THEN 1 ELSE p + 1

LeftPhilosopher(p) == IF p = 1 THEN NP ELSE p - 1
RightPhilosopher(p) == IF p = NP THEN 1 ELSE p + 1

IsHoldingBothForks(p) ==
  forks[LeftFork(p)].holder = p /\ forks[RightFork(p)].holder = p
BothForksAreClean(p) ==
  forks[LeftFork(p)].clean /\ forks[RightFork(p)].clean

CanEat(p) == IsHoldingBothForks(p) /\ BothForksAreClean(p)

VARIABLE hungry

vars == << forks, pc, hungry >>

ProcSet == (1 .. NP)

Init == (* Global variables *)
        /\ forks = [fork \in 1 .. NP |-> [
                       holder |-> IF fork = 2 THEN 1 ELSE fork,
                       clean |-> FALSE
                   ]]
        (* Process Philosopher *)
        /\ hungry = [self \in 1 .. NP |-> TRUE]
        /\ pc = [self \in ProcSet |-> "Loop"]

Loop(self) == /\ pc[self] = "Loop"
              /\ IF forks[LeftFork(self)].holder = self /\ ~forks[LeftFork(self)].clean
                    THEN /\ forks' = [forks EXCEPT ![LeftFork(self)] = [holder |-> LeftPhilosopher(self), clean |-> TRUE]]
                    ELSE /\ IF forks[RightFork(self)].holder = self /\ ~forks[RightFork(self)].clean
                               THEN /\ forks' = [forks EXCEPT ![RightFork(self)] = [holder |-> RightPhilosopher(self), clean |-> TRUE]]
                               ELSE /\ TRUE
                                    /\ forks' = forks
              /\ pc' = [pc EXCEPT ![self] = "Choose"]
              /\ UNCHANGED hungry

Choose(self) == /\ pc[self] = "Choose"
                /\ IF hungry[self]
                      THEN /\ IF CanEat(self)
                                 THEN /\ pc' = [pc EXCEPT ![self] = "Eat"]
                                 ELSE /\ pc' = [pc EXCEPT ![self] = "Loop"]
                      ELSE /\ pc' = [pc EXCEPT ![self] = "Think"]
                /\ UNCHANGED << forks, hungry >>

Eat(self) == /\ pc[self] = "Eat"
             /\ Assert(IsHoldingBothForks(self),
                       "Failure of assertion at line 39, column 9.")
             /\ hungry' = [hungry EXCEPT ![self] = FALSE]
             /\ forks' = [forks EXCEPT ![LeftFork(self)].clean = FALSE,
                                       ![RightFork(self)].clean = FALSE]
             /\ pc' = [pc EXCEPT ![self] = "Loop"]

Think(self) == /\ pc[self] = "Think"
               /\ hungry' = [hungry EXCEPT ![self] = TRUE]
               /\ pc' = [pc EXCEPT ![self] = "Loop"]
               /\ forks' = forks

Philosopher(self) == Loop(self) \/ Choose(self) \/ Eat(self) \/ Think(self)

Next == (\E self \in 1 .. NP : Philosopher(self))

Spec == /\ Init /\ [][Next]_vars
        /\ \A self \in 1 .. NP : WF_vars(Philosopher(self))
\* END TRANSLATION
-----------------------------------------------------------------------------
ExclusiveAccess ==
  \A p \in 1 .. NP : pc[p] = "Eat" => IsHoldingBothForks(p)

NobodyStarves ==
  \A p \in 1 .. NP : []<>(~hungry[p])
=============================================================================
