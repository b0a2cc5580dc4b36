---- MODULE SequencesExt ----
EXTENDS Integers, Sequences, FiniteSets

ToSet(s) == {s[i] : i \in DOMAIN s}

\* A sequence of all members of a set, each once; and all such sequences.
SetToSeq(S) ==
    LET Listed[T \in SUBSET S] ==
            IF T = {} THEN <<>> ELSE LET x == CHOOSE y \in T : TRUE IN <<x>> \o Listed[T \ {x}]
    IN  Listed[S]

SetToSeqs(S) ==
    LET Orders[T \in SUBSET S] ==
            IF T = {} THEN {<<>>} ELSE UNION {{<<x>> \o s : s \in Orders[T \ {x}]} : x \in T}
    IN  Orders[S]

\* The sequences over S of length n, and those of length n at most.
TupleOf(S, n) == [1..n -> S]

SeqOf(S, n) == UNION {[1..m -> S] : m \in 0..n}

BoundedSeq(S, n) == SeqOf(S, n)

Contains(s, e) == \E i \in 1..Len(s) : s[i] = e

Reverse(s) == [i \in 1..Len(s) |-> s[Len(s) - i + 1]]

\* The sequences of a sequence, one behind the other.
FlattenSeq(seqs) ==
    LET Joined[i \in 1..Len(seqs), j \in 1..Len(seqs)] ==
            IF i = j
            THEN seqs[i]
            ELSE LET middle == (i + j) \div 2 IN Joined[i, middle] \o Joined[middle + 1, j]
    IN  IF Len(seqs) = 0 THEN <<>> ELSE Joined[1, Len(seqs)]

\* Two sequences of one length, which is not 0: their items as pairs, or in turn.
Zip(s, t) == CASE Len(s) = Len(t) /\ Len(s) > 0 -> [i \in 1..Len(s) |-> <<s[i], t[i]>>]

Interleave(s, t) == FlattenSeq(Zip(s, t))

\* Each e removed; the first one; the item at i.
Remove(s, e) == FlattenSeq([i \in 1..Len(s) |-> IF s[i] = e THEN <<>> ELSE <<s[i]>>])

RemoveAt(s, i) == SubSeq(s, 1, i - 1) \o SubSeq(s, i + 1, Len(s))

RemoveFirst(s, e) ==
    IF Contains(s, e)
    THEN RemoveAt(s, CHOOSE i \in 1..Len(s) : s[i] = e /\ \A j \in 1..(i - 1) : s[j] # e)
    ELSE s

ReplaceAll(s, old, new) == [i \in 1..Len(s) |-> IF s[i] = old THEN new ELSE s[i]]

ReplaceAt(s, i, e) == [s EXCEPT ![i] = e]

\* e stands at i, and what stood there and behind it stands behind e.
InsertAt(s, i, e) == SubSeq(s, 1, i - 1) \o <<e>> \o SubSeq(s, i, Len(s))

Front(s) == SubSeq(s, 1, Len(s) - 1)

Last(s) == s[Len(s)]

Cons(e, s) == <<e>> \o s

IsPrefix(s, t) == Len(s) <= Len(t) /\ s = SubSeq(t, 1, Len(s))

IsStrictPrefix(s, t) == IsPrefix(s, t) /\ s # t

IsSuffix(s, t) == Len(s) <= Len(t) /\ s = SubSeq(t, Len(t) - Len(s) + 1, Len(t))

IsStrictSuffix(s, t) == IsSuffix(s, t) /\ s # t

Prefixes(s) == {SubSeq(s, 1, n) : n \in 0..Len(s)}

Suffixes(s) == {SubSeq(s, n, Len(s)) : n \in 1..(Len(s) + 1)}

\* The sequences with which each member of a set of sequences begins, and the longest of them.
CommonPrefixes(S) == {p \in UNION {Prefixes(s) : s \in S} : \A s \in S : IsPrefix(p, s)}

LongestCommonPrefix(S) == CHOOSE p \in CommonPrefixes(S) : \A q \in CommonPrefixes(S) : Len(q) <= Len(p)

\* The number from 1 to b that stands for a in rounds of b.
SeqMod(a, b) == IF a % b = 0 THEN b ELSE a % b

\* What stands in s from one place to another, without a gap; where s first stands in t so; and t with r in its place.
SubSeqs(s) == {SubSeq(s, i + 1, j) : i \in 0..Len(s), j \in 0..Len(s)}

IndexFirstSubSeq(s, t) ==
    LET Stands(i) == SubSeq(t, i, i + Len(s) - 1) = s
    IN  CHOOSE i \in 1..(Len(t) - Len(s) + 1) : Stands(i) /\ \A j \in 1..(i - 1) : ~Stands(j)

ReplaceSubSeqAt(i, r, s, t) == SubSeq(t, 1, i - 1) \o r \o SubSeq(t, i + Len(s), Len(t))

ReplaceFirstSubSeq(r, s, t) ==
    IF s \in SubSeqs(t) THEN ReplaceSubSeqAt(IndexFirstSubSeq(s, t), r, s, t) ELSE t
====
