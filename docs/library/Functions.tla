---- MODULE Functions ----
EXTENDS Naturals, FiniteSets

Restrict(f, S) == [x \in S |-> f[x]]

IsRestriction(f, g) == DOMAIN f \subseteq DOMAIN g /\ \A x \in DOMAIN f : f[x] = g[x]

Range(f) == {f[x] : x \in DOMAIN f}

\* What f, from S, leads back from T: of t an s with f[s] = t, where there is one.
Inverse(f, S, T) == [t \in T |-> CHOOSE s \in S : t \in Range(f) => f[s] = t]

AntiFunction(f) == Inverse(f, DOMAIN f, Range(f))

IsInjective(f) == \A x, y \in DOMAIN f : f[x] = f[y] => x = y

Injection(S, T) == {f \in [S -> T] : IsInjective(f)}

Surjection(S, T) == {f \in [S -> T] : T \subseteq Range(f)}

Bijection(S, T) == {f \in Injection(S, T) : T \subseteq Range(f)}

\* Whether there is such a function, told by the sizes of finite sets.
ExistsInjection(S, T) == Cardinality(S) <= Cardinality(T)

ExistsSurjection(S, T) == Cardinality(T) <= Cardinality(S) /\ (T = {} => S = {})

ExistsBijection(S, T) == Cardinality(S) = Cardinality(T)
====
