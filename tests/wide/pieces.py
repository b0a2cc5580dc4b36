"""Rows of modules of which something can not be read or is not needed, for `check` beside this file: each has a name, the files, the words behind
`validate`, and the status and the report with `--wide`. The log is `c.log`, the module `Counter.tla`."""

BASE = """---- MODULE Counter ----
EXTENDS Integers
VARIABLE x
Init == x = 0
Next == x' = x + 1
"""
END = "====\n"
STATES = '{"state":{"x":0},"step":"init"}\n{"file":1,"line":1,"state":{"x":1},"step":"line"}\n'
# A term that is not read. It stands at column 6 behind `D == `.
BAD = "\\EE v : v = 1"
MODULE, LOG = ("Counter.tla",), ("c.log",)


def told(*lines):
    return 0, "EXPLAINED lines=1 widest=1\n" + "".join(f"NOT CHECKED {line}\n" for line in lines) + STATES


def refused(text, root=None):
    return 3, f"REFUSED {text}\n" + (f"NEEDED BY {root}\n" if root else "")


def row(name, text, wanted, base=BASE, end=END, log="{}\n", words=(), **others):
    """A row of the base with a text behind it, and further files, of which A.cfg is the configuration."""
    config = ("--config", "A.cfg") if "A" in others else ()
    files = {"Counter.tla": base + text + end, "c.log": log}
    files.update((key + (".cfg" if key == "A" else ".tla"), content) for key, content in others.items())
    return name, files, (*words, *config, *MODULE, *LOG), wanted


def passed(name, text, *lines):
    return row(name, text, told(*lines))


def at(line, column=1, file="Counter"):
    return f"at {file}.tla:{line}:{column}"


# Each kind of piece that is not read and that no step needs.
PASSED_OVER = [
    passed("a definition", f"D == {BAD}\n", f"DEFINITION D {at(6)}"),
    passed("one with parameters", f"D(a, b) == {BAD}\n", f"DEFINITION D {at(6)}"),
    passed("one with an operator as a parameter", "D(a(_), b) == a(b)\n", f"DEFINITION D {at(6)}"),
    passed("a function", f"D[i \\in 1 .. 2] == {BAD}\n", f"DEFINITION D {at(6)}"),
    passed("an unbounded choice", "D == CHOOSE v : v \\notin 1 .. 2\n", f"DEFINITION D {at(6)}"),
    passed("a tuple as a bound name", "D == \\E <<a, b>> \\in {<<1, 2>>} : a = b\n", f"DEFINITION D {at(6)}"),
    passed("LAMBDA", "D == LAMBDA a : a\n", f"DEFINITION D {at(6)}"),
    passed("a symbol that no module defines", "D == 1 \\prec 2\n", f"DEFINITION D {at(6)}"),
    passed("an operator for a symbol, with the unit before it", "D == 1\na ++ b == 7\n", f"DEFINITION D {at(6)}"),
    passed("one in brackets", "D == 1\na (+) b == 7\n", f"DEFINITION D {at(6)}"),
    passed("one before its argument", "D == 1\n-. b == 7\n", f"DEFINITION D {at(6)}"),
    passed("one of the language", "D == 1\na < b == 7\n", f"DEFINITION D {at(6)}"),
    passed("one behind its argument", "D == 1\na ^+ == 7\n", f"DEFINITION D {at(6)}"),
    passed("a label", "D == \\A i \\in 1 .. 2 : P0(i):: i = i\n", f"DEFINITION D {at(6)}"),
    passed("a bracket that is not closed", "D == (1\nE == 2\n", f"DEFINITION D {at(6)}"),
    passed("a list that is left inside a bracket", "D == /\\ (1 =\n/\\ 1)\nE == 2\n", f"DEFINITION D {at(6)}"),
    passed("101 brackets", f"D == {'(' * 101}1{')' * 101}\n", f"DEFINITION D {at(6)}"),
    passed("what is defined in a LET is no piece", f"D == LET a == 1 b == {BAD} IN a\nE == 1\n", f"DEFINITION D {at(6)}"),
    passed("a LET without IN", "D == LET a == 1\nE == 2\n" + "-" * 8 + "\nF == 2\n", f"DEFINITION D {at(6)}"),
    passed("an assumption", "ASSUME \\E v : v = 1\n", f"ASSUME {at(6)}"),
    passed("one with a name", "AXIOM Named == \\E v : v = 1\n", f"ASSUME {at(6)}"),
    passed("a constant that is an operator", "CONSTANT F(_)\n", f"DECLARATION F {at(6)}"),
    passed("two of them", "CONSTANTS F(_), G(_, _)\n", f"DECLARATION F {at(6)}", f"DECLARATION G {at(6)}"),
    passed("an instance", "INSTANCE Other\n", f"INSTANCE {at(6)}"),
    passed("an instance with what stands for its names", "INSTANCE Other WITH y <- x\n", f"INSTANCE {at(6)}"),
    row("an instance with a name, which is read", "I == INSTANCE Other WITH y <- x\n", told(), Other="---- MODULE Other ----\nVARIABLE y\n" + END),
    row("one inside it", "I == INSTANCE Other\n", told(), Other="---- MODULE Other ----\nJ == INSTANCE Lacking\n" + END),
    passed("an instance with parameters", "I(y) == INSTANCE Other\n", f"DEFINITION I {at(6)}"),
    row("a name that an instance lacks", "I == INSTANCE Other\nD == I!Spec\n", told(f"DEFINITION D {at(7)}"), Other="---- MODULE Other ----\n" + END),
    passed("LOCAL and what is not read", f"LOCAL D == {BAD}\n", f"DEFINITION D {at(6)}"),
    passed("LOCAL and an operator for a symbol", "LOCAL a ++ b == 1\n", f"DEFINITION a {at(6)}"),
    passed("LOCAL alone", "LOCAL\nASSUME 1 = 1\n", f"DEFINITION {at(6)}"),
    passed("a local instance", "LOCAL INSTANCE Other\n", f"DEFINITION {at(6)}"),
    passed("RECURSIVE that is not read, and the definition of its name", "RECURSIVE D(y)\nD(n) == n\n", f"DEFINITION D {at(7)}"),
    passed("RECURSIVE of a definition that is not read", f"RECURSIVE D(_)\nD(n) == IF n = 0 THEN D(n - 1) ELSE {BAD}\n", f"DEFINITION D {at(7)}"),
    passed("RECURSIVE of one that is read", f"RECURSIVE D(_)\nD(n) == IF n = 0 THEN 0 ELSE D(n - 1)\nE == {BAD}\n", f"DEFINITION E {at(8)}"),
    passed("a proof in one word", "THEOREM Init => x = 0\nOBVIOUS\n"),
    passed("a proof in a line", "LEMMA Safe == Init => x = 0\n  PROOF BY DEF Init\n"),
    passed("a proof with steps", "THEOREM Init => x = 0\n<1>1. x = 0\n  <2>1. QED OBVIOUS\n<1> DEFINE Next == 1\n<1>2. QED BY <1>1\n"),
    passed("what a theorem assumes", "THEOREM ASSUME NEW CONSTANT c, NEW y PROVE c = c\n  OMITTED\n"),
    passed("USE and HIDE", "USE DEF Init\nHIDE DEF Next\n"),
    passed("several", f"ASSUME {BAD}\nD == {BAD}\nCONSTANT F(_)\n", f"ASSUME {at(6)}", f"DEFINITION D {at(7)}", f"DECLARATION F {at(8)}"),
    row("one behind and one before what is needed", "D == LAMBDA n : n\n" + BASE.partition("VARIABLE x\n")[2] + f"E == {BAD}\n",
        told(f"DEFINITION D {at(4)}", f"DEFINITION E {at(7)}"), base=BASE.partition("Init")[0]),
]

NEXT_OF_D = BASE.replace("x + 1", "D")
INIT_OF_D = BASE.replace("x = 0", "x = D")
BOTH_OF_D = NEXT_OF_D.replace("x = 0", "x = D")
EE = "P4 OutOfProfile \\EE"
# Arguments of operators, and what proofs define, are no definitions.
NEXT_OF_B = BASE.replace("x + 1", "x + b")
NO_B = refused(f"V1 UnknownName b {at(5, 18)}")

# What a step needs and that can not be read, and what needs it.
NEEDED = [
    row("Next itself", "", refused(f"{EE} {at(5, 9)}", "Next"), base=BASE.replace("x' = x + 1", BAD)),
    row("Init itself", "", refused(f"{EE} {at(4, 9)}", "Init"), base=BASE.replace("x = 0", BAD)),
    row("what Next uses", f"D == {BAD}\n", refused(f"{EE} {at(6, 6)}", "Next"), base=NEXT_OF_D),
    row("what Init uses", f"D == {BAD}\n", refused(f"{EE} {at(6, 6)}", "Init"), base=INIT_OF_D),
    row("what both use", f"D == {BAD}\n", refused(f"{EE} {at(6, 6)}", "Init"), base=BOTH_OF_D),
    row("by way of others", f"D == E\nE == F(1)\nF(a) == {BAD}\n", refused(f"{EE} {at(8, 9)}", "Next"), base=NEXT_OF_D),
    row("of two the first in the text", f"D == {BAD}\nE == I!N\n", refused(f"{EE} {at(6, 6)}", "Next"), base=NEXT_OF_D.replace("x = 0", "x = E")),
    row("beside one that is not needed", f"E == I!N\nD == {BAD}\n", refused(f"{EE} {at(7, 6)}", "Next"), base=NEXT_OF_D),
    row("a variable", "VARIABLES y(_)\n", refused(f"P1 Expected {at(6, 12)}", "Next"), base=BASE.replace("x + 1", "x + 1 /\\ y' = y")),
    row("a constant that is an operator", "CONSTANT D(_)\n", refused(f"P1 Expected {at(6, 11)}", "Next"), base=BASE.replace("x + 1", "D(x)")),
    row("LOCAL", f"LOCAL D == {BAD}\n", refused(f"{EE} {at(6, 12)}", "Next"), base=NEXT_OF_D),
    row("LOCAL and an operator for a symbol", "LOCAL a ++ b == 1\n", refused(f"P4 OutOfProfile ++ {at(6, 9)}", "Next"), base=BASE.replace("x + 1", "x + a")),
    row("RECURSIVE", "RECURSIVE D(y)\nD(n) == 1\n", refused(f"P1 Expected {at(6, 13)}", "Next"), base=BASE.replace("x + 1", "D(x)")),
    row("what RECURSIVE declares", f"RECURSIVE D(_)\nD(n) == IF n = 0 THEN 1 ELSE D({BAD})\n", refused(f"{EE} {at(7, 32)}", "Next"), base=BASE.replace("x + 1", "D(x)")),
    row("an instance of a module that is not there", "I == INSTANCE Other\n", (3, "REFUSED Missing Other.tla\n")),
    row("a name that an instance has", "INSTANCE Sums\n", refused(f"V1 UnknownName Plus {at(5, 14)}"), base=BASE.replace("x + 1", "Plus(x, 1)")),
    row("an argument of an operator for a symbol", "D == 1\na ++ b == 7\nINSTANCE Other\n", NO_B, base=NEXT_OF_B),
    row("of one in brackets", "D == 1\na (+) b == 7\nINSTANCE Other\n", NO_B, base=NEXT_OF_B),
    row("of one before it", "D == 1\n-. b == 7\nINSTANCE Other\n", NO_B, base=NEXT_OF_B),
    row("of one of the language", "D == 1\na < b == 7\nINSTANCE Other\n", NO_B, base=NEXT_OF_B),
    row("what a proof defines in a step without a number", "THEOREM x = x\n<*> DEFINE b == 7\n<*> QED\nINSTANCE Other\n", NO_B, base=NEXT_OF_B),
    row("and in one that is deeper", "THEOREM x = x\n<1>1. x = x\n<+> DEFINE b == 7\n<+> QED\n<1> QED\nINSTANCE Other\n", NO_B, base=NEXT_OF_B),
    row("behind SPECIFICATION", f"D == {BAD}\nS == Init /\\ [][Next]_x\n", refused(f"{EE} {at(6, 6)}", "S"), base=NEXT_OF_D, A="SPECIFICATION S\n"),
    row("in its fairness", f"D == {BAD}\nS == Init /\\ [][Next]_x /\\ WF_x(D)\n", refused(f"{EE} {at(6, 6)}", "S"), A="SPECIFICATION S\n"),
    row("behind NEXT", f"Step == {BAD}\n", refused(f"{EE} {at(6, 9)}", "Step"), A="INIT Init\nNEXT Step\n"),
    row("Next of a configuration with another", "", told(f"DEFINITION Next {at(5)}"), base=BASE.replace("x' = x + 1", BAD) + "Step == x' = x + 1\n", A="INIT Init\nNEXT Step\n"),
    row("the silent operator", f"Hidden == {BAD}\n", refused(f"{EE} {at(6, 11)}", "Hidden"), words=("--within", "2", "--silent", "Hidden")),
    row("what it uses", f"D == {BAD}\nHidden == x' = D\n", refused(f"{EE} {at(6, 6)}", "Hidden"), words=("--within", "2", "--silent", "Hidden")),
    row("the same without the word --silent", f"D == {BAD}\nHidden == x' = D\n", told(f"DEFINITION D {at(6)}", f"DEFINITION Hidden {at(7)}")),
    row("what replaces a name", f"E == {BAD}\nD == 1\n", refused(f"{EE} {at(6, 6)}", "E"), base=NEXT_OF_D, A="INIT Init\nNEXT Next\nCONSTANT D <- E\n"),
    row("what is replaced", f"D == {BAD}\nE == 1\n", refused(f"{EE} {at(6, 6)}", "Next"), base=NEXT_OF_D, A="INIT Init\nNEXT Next\nCONSTANT D <- E\n"),
    row("what is replaced and no step uses", f"D == {BAD}\nE == 1\n", refused(f"{EE} {at(6, 6)}", "D"), A="INIT Init\nNEXT Next\nCONSTANT D <- E\n"),
    row("what the replacement uses", f"E == F\nF == {BAD}\nD == 1\n", refused(f"{EE} {at(7, 6)}", "Next"), base=NEXT_OF_D, A="INIT Init\nNEXT Next\nCONSTANT D <- E\n"),
]

ABOVE = "---- MODULE Counter ----\nEXTENDS Base\nNext == x' = x + D\n"
BELOW = "---- MODULE Base ----\nEXTENDS Integers\nVARIABLE x\nInit == x = 0\nD == 1\n"
# Pieces of modules that are extended.
EXTENDED = [
    row("passed over", f"E == {BAD}\n", told(f"DEFINITION F {at(6, file='Base')}", f"DEFINITION E {at(4)}"), base=ABOVE, Base=BELOW + f"F == {BAD}\n" + END),
    row("needed", "", refused(f"{EE} {at(5, 6, 'Base')}", "Next"), base=ABOVE, Base=BELOW.replace("D == 1", f"D == {BAD}") + END),
    row("used by what is bad", "E == F\n", told(f"DEFINITION F {at(6, file='Base')}", f"DEFINITION E {at(4)}"), base=ABOVE, Base=BELOW + f"F == {BAD}\n" + END),
    row("an assumption", "", told(f"ASSUME {at(6, file='Base')}"), base=ABOVE, Base=BELOW + f"ASSUME {BAD}\n" + END),
    row("what the heading names is missing", f"E == {BAD}\n", (3, "REFUSED Missing Base.tla\n"), base=ABOVE),
    row("a cycle", f"E == {BAD}\n", (3, "REFUSED M5 Cycle Counter Base Counter\n"), base=ABOVE, Base=BELOW.replace("Integers", "Integers, Counter") + END),
]

NEXT_OF_LEN = BASE.replace("x + 1", "x + Len(<<7>>)")
# LOCAL before a definition is left away.
LOCAL = [
    row("a definition", "LOCAL D == 1\n", told(), base=NEXT_OF_D),
    row("one with a parameter", "LOCAL D(a) == a\n", told(), base=BASE.replace("x + 1", "x + D(1)")),
    row("a function", "LOCAL D[i \\in 0 .. 3] == i + 1\n", told(), base=BASE.replace("x + 1", "D[x]")),
    row("what RECURSIVE declares", "RECURSIVE D(_)\nLOCAL D(n) == IF n = 0 THEN 1 ELSE D(n - 1)\n", told(), base=BASE.replace("x + 1", "x + D(2)")),
    row("an instance with a name", "LOCAL I == INSTANCE Other\n", told(), base=BASE.replace("x + 1", "I!D(x)"), Other="---- MODULE Other ----\nEXTENDS Integers\nD(n) == n + 1\n" + END),
    row("one that no step needs", "LOCAL D == 1\nE == D\n", told()),
    row("what it uses can not be read", f"LOCAL D == E\nE == {BAD}\n", refused(f"{EE} {at(7, 6)}", "Next"), base=NEXT_OF_D),
    row("an event", "LOCAL Grown == x' = x + 1 /\\ x' > x\n", told(), log='{"event":"Grown"}\n'),
    row("its name twice", "LOCAL D == 1\nD == 2\n", refused(f"M7 Twice D {at(7)} and Counter.tla:6:7")),
    row("its name again in a module above", "D == 2\n", refused(f"M7 Twice D {at(4)} and Base.tla:5:7"), base=ABOVE, Base=BELOW.replace("D == 1", "LOCAL D == 1") + END),
]
# An instance without a name of a standard module or one of the library is as if the module stood under EXTENDS.
BROUGHT = [
    row("an instance", "INSTANCE Sequences\n", told(), base=NEXT_OF_LEN),
    row("a local one", "LOCAL INSTANCE Sequences\n", told(), base=NEXT_OF_LEN),
    row("of no module under EXTENDS", "", told(), base=BASE.replace("EXTENDS", "INSTANCE").replace("x = 0", "x = 0 /\\ x \\in Int")),
    row("two of them", "LOCAL INSTANCE FiniteSets\nD == Cardinality({1})\nLOCAL INSTANCE Sequences\n", told(), base=NEXT_OF_D.replace("x = 0", "x = Len(<<>>)")),
    row("of one that EXTENDS has too", "LOCAL INSTANCE Integers\n", told()),
    row("the same twice", "LOCAL INSTANCE Sequences\nINSTANCE Sequences\n", told(), base=NEXT_OF_LEN),
    row("in a module that is extended", "", told(), base=ABOVE.replace("x + D", "x + Len(<<D>>)"), Base=BELOW + "LOCAL INSTANCE Sequences\n" + END),
    row("beside what can not be read", f"LOCAL INSTANCE Sequences\nD == {BAD}\n", told(f"DEFINITION D {at(7)}"), base=NEXT_OF_LEN),
    row("a name of it again", "LOCAL INSTANCE Sequences\nLen(s) == 1\n", refused(f"M7 Twice Len {at(7)} and standard")),
    row("with what stands for its names", "LOCAL INSTANCE Sequences WITH y <- x\n", refused(f"V1 UnknownName Len {at(5, 18)}"), base=NEXT_OF_LEN),
    row("of a user's file with the name of one of the library", "LOCAL INSTANCE FiniteSetsExt\n", told(), base=NEXT_OF_D, FiniteSetsExt="---- MODULE FiniteSetsExt ----\nD == 1\n" + END),
    row("of a module of the user's", "INSTANCE Other\n", told(f"INSTANCE {at(6)}"), Other="---- MODULE Other ----\nVARIABLE x\nD == 1\n" + END),
    row("a local one of such a module", "LOCAL INSTANCE Other\n", told(f"DEFINITION {at(6)}"), Other="---- MODULE Other ----\nVARIABLE x\nD == 1\n" + END),
    row("of such a module, which a step needs", "INSTANCE Other\n", refused(f"V1 UnknownName D {at(5, 18)}"), base=BASE.replace("x + 1", "x + D"), Other="---- MODULE Other ----\nD == 1\n" + END),
]

GROWS = "Grown == x' = x + 1 /\\ x' > x\n"
SEEN = '{"event":"Grown"}\n'
# What is read, and can not be resolved.
PRUNED = [
    passed("an unknown name", "D == Permutations({1})\n", f"DEFINITION D {at(6)}"),
    passed("what uses it", "E == D + 1\nD == Permutations({1})\nF == E\nG == 1\n", f"DEFINITION E {at(6)}", f"DEFINITION D {at(7)}", f"DEFINITION F {at(8)}"),
    passed("what uses one that was not read", f"D == {BAD}\nE == D\nF(a) == a + E\n", f"DEFINITION D {at(6)}", f"DEFINITION E {at(7)}", f"DEFINITION F {at(8)}"),
    passed("a parameter of its name", f"D == {BAD}\nE(D) == D\n", f"DEFINITION D {at(6)}"),
    passed("a bound name of its name", f"D == {BAD}\nE == \\E D \\in 1 .. 2 : D = 1\n", f"DEFINITION D {at(6)}"),
    passed("one of two of one name is not read", f"D == {BAD}\nD == 1\n", f"DEFINITION D {at(6)}", f"DEFINITION D {at(7)}"),
    passed("an assumption of an unknown name", "ASSUME y = 1\n", f"ASSUME {at(6, 10)}"),
    passed("an assumption that uses one that was not read", f"D == {BAD}\nASSUME D = 1\nASSUME 1 = 1\n", f"DEFINITION D {at(6)}", f"ASSUME {at(7, 10)}"),
    row("an assumption that does not hold", f"D == {BAD}\nASSUME 1 = 2\n", (4, f"ASSUME FALSE {at(7, 10)}\n")),
    row("a needed unknown name", f"D == {BAD}\nE == y\n", refused(f"V1 UnknownName y {at(7, 6)}"), base=BASE.replace("x + 1", "E")),
    row("beside an observer", f"D == {BAD}\n{GROWS}", told(f"DEFINITION D {at(6)}"), log=SEEN),
    row("an observer that is not read", "Grown == \\EE y : x' = x + 1\n", refused("O5 UnknownEvent at c.log:1"), log=SEEN),
    row("an observer that uses one", f"Grown == D /\\ x' = x + 1\nD == {BAD}\n", refused("O5 UnknownEvent at c.log:1"), log=SEEN),
]
# What is refused for another cause: what is needed is left alone.
ALONE = [
    passed("two primes", "D == (x')'\nE == 1\n", f"DEFINITION D {at(6)}", f"DEFINITION E {at(7)}"),
    passed("too few arguments", "F(a) == a\nE == F\n", f"DEFINITION F {at(6)}", f"DEFINITION E {at(7)}"),
    passed("a term with a prime under a prime", "F(p) == p'\nE == F(x')\n", f"DEFINITION F {at(6)}", f"DEFINITION E {at(7)}"),
    passed("a definition that uses itself", "f == [n \\in 0 .. 3 |-> IF n = 0 THEN 0 ELSE f[n - 1]]\n", f"DEFINITION f {at(6)}"),
    passed("one that is declared and reads a variable", "RECURSIVE D(_)\nD(n) == IF n = 0 THEN x ELSE D(n - 1)\n", f"DEFINITION D {at(7)}"),
    passed("one in a LET", "D == LET f[n \\in 0 .. 3] == IF n = 0 THEN x ELSE f[n - 1] IN f[3]\n", f"DEFINITION D {at(6)}"),
    passed("two that use one another", "D == E\nE == D\n", f"DEFINITION D {at(6)}", f"DEFINITION E {at(7)}"),
    passed("beside an unknown name", "D == E\nE == D\nF == y\n", f"DEFINITION F {at(8)}", f"DEFINITION D {at(6)}", f"DEFINITION E {at(7)}"),
    passed("beside one that was not read", f"D == E\nE == D\nF == {BAD}\n", f"DEFINITION F {at(8)}", f"DEFINITION D {at(6)}", f"DEFINITION E {at(7)}"),
    passed("and what is assumed of it", "D == D\nASSUME D = 1\nASSUME 1 = 1\n", f"DEFINITION D {at(6)}", f"ASSUME {at(7, 10)}"),
    row("a needed one", "E == E\n", refused(f"V7 Recursion E {at(6)}"), base=BASE.replace("x + 1", "E")),
    row("a needed function that uses itself", "f[n \\in 0 .. 3] == IF n = 0 THEN x ELSE f[n - 1]\n", refused(f"V7 Recursion f {at(6)}"), base=BASE.replace("x + 1", "f[x]")),
    row("an observer goes too", f"D == D\n{GROWS}", refused("O5 UnknownEvent at c.log:1"), log=SEEN),
    row("what is used for a step stays", "One == 1\nD == D\n", told(f"DEFINITION D {at(7)}"), base=BASE.replace("x + 1", "x + One")),
]

MANY = "VARIABLES " + ", ".join(f"v{n}" for n in range(64)) + "\n"
# What is refused as ever.
AS_EVER = [
    row("65 variables", MANY + f"D == {BAD}\n", refused(f"V8 TooManyVariables {at(6, MANY.index('v63') + 1)}")),
    row("65 variables and an unknown name", MANY + "D == y\n", refused(f"V8 TooManyVariables {at(6, MANY.index('v63') + 1)}")),
    row("a module inside", "---- MODULE Inner ----\nD == 1\n====\n", refused(f"P4 OutOfProfile MODULE {at(6, 6)}")),
    row("a module inside, and a piece", f"D == {BAD}\n---- MODULE Inner ----\nE == 1\n====\n", refused(f"{EE} {at(6, 6)}")),
    row("a character that is none", f"D == {BAD}\nE == 1 ? 2\n", refused(f"L2 BadCharacter {at(7, 8)}")),
    row("a string that is open", f"D == {BAD}\nE == \"a\n", refused(f"L3 OpenString {at(7, 6)}")),
    row("no end", f"D == {BAD}\n", refused(f"{EE} {at(6, 6)}"), end=""),
    row("a heading that is not read", f"D == {BAD}\n", refused(f"P1 Expected {at(3)}"), base=BASE.replace("Integers", "Integers Sequences")),
    row("another name than the file's", f"D == {BAD}\n", refused(f"M8 WrongName Other {at(1, 13)}"), base=BASE.replace("Counter", "Other")),
    row("a name twice", f"E == 1\nE == 2\nD == {BAD}\n", refused(f"M7 Twice E {at(7)} and Counter.tla:6:1")),
    row("no Next", f"D == {BAD}\n", refused("V9 NoOperator Next"), base=BASE.replace("Next", "Step")),
    row("a configuration that is refused", f"D == {BAD}\n", refused("G1 Syntax at A.cfg:1:6"), A="INIT = Init\n"),
    row("a constant without a value", f"D == {BAD}\nCONSTANT C\n", refused(f"V5 NoValue C {at(7, 10)}")),
    row("a form of action", f"D == {BAD}\n", refused(f"A1 PrimeTooEarly x {at(5, 9)}"), base=BASE.replace("x' = x + 1", "x' > x /\\ x' = 1")),
    row("a line of the log", f"D == {BAD}\n", refused("O4 UnknownVariable at c.log:1"), log='{"see":[["y",1]]}\n'),
]
# What is accepted without the word is so with it.
STRICT_FIRST = [
    passed("nothing to pass over", "D == 1\nTHEOREM x = D\n"),
    passed("a name that begins a piece elsewhere", "USE == 1\nD == USE + 1\n"),
    row("the same name in what a step needs", "USE == 1\n", told(), base=BASE.replace("x + 1", "x + USE")),
    row("the same, and a piece", f"USE == 1\nD == {BAD}\n", refused(f"P1 Expected {at(5, 18)}", "Next"), base=BASE.replace("x + 1", "x + USE")),
]

# Calls of TLC's operators for assertions and for printing.
TLC = BASE.replace("Integers", "Integers, TLC")


def next_is(action):
    return TLC.replace("x' = x + 1", action)


def faults(line, column, state='{"x":0}'):
    return 4, f'FAULT E11 NoCase {at(line, column)} after=0 silent=0\n{{"state":{state},"step":"fault"}}\n'


# As the translator writes an algorithm with `assert` and `print`.
TRANSLATED = """---- MODULE Counter ----
EXTENDS Integers, TLC
(* --algorithm Counter
variables x = 0;
begin
  A: assert x < LIMIT;
     print <<"x", x>>;
     x := x + 1;
end algorithm *)
\\* BEGIN TRANSLATION
VARIABLES x, pc
vars == << x, pc >>
Init == (* Global variables *)
        /\\ x = 0
        /\\ pc = "A"
A == /\\ pc = "A"
     /\\ Assert(x < LIMIT, "Failure of assertion at line 6, column 6.")
     /\\ PrintT(<<"x", x>>)
     /\\ x' = x + 1
     /\\ pc' = "Done"
Next == A \\/ (pc = "Done" /\\ UNCHANGED vars)
Spec == Init /\\ [][Next]_vars
\\* END TRANSLATION
"""
TOLD_ALGORITHM = (
    0,
    'EXPLAINED lines=1 widest=1\n{"state":{"pc":"A","x":0},"step":"init"}\n{"file":1,"line":1,"state":{"pc":"Done","x":1},"step":"line"}\n',
)

TLC_CALLS = [
    row("Assert that holds", "", told(), base=next_is('Assert(x >= 0, "no") /\\ x\' = x + 1')),
    row("Assert that does not", "", faults(5, 9), base=next_is('Assert(x > 0, "no") /\\ x\' = x + 1')),
    row("behind what it speaks of", "", told(), base=next_is('x\' = x + 1 /\\ Assert(x\' > x, "no")')),
    row("PrintT", "", told(), base=next_is('PrintT("x") /\\ x\' = x + 1')),
    row("Print", "", told(), base=next_is("x' = Print(x, x + 1)")),
    row("TLCEval", "", told(), base=next_is("x' = TLCEval(x) + 1")),
    row("TLCEval of an action", "", told(), base=next_is("TLCEval(x' = x + 1)")),
    row("one in another", "", told(), base=next_is("x' = TLCEval(Print(PrintT(x), TLCEval(x + 1)))")),
    row("in an operator", 'Grows(n) == Assert(n > 0, "no") /\\ x\' = x + n\n', told(), base=next_is("Grows(1)")),
    row("in an assumption", 'ASSUME PrintT("begun")\nASSUME Assert(1 = 1, "no")\n', told(), base=TLC),
    row("in an assumption that does not hold", 'ASSUME Assert(1 = 2, "no")\n', (4, f"ASSUME FAULT E11 NoCase {at(6, 8)}\n"), base=TLC),
    row("in what no step needs, which is left", 'D == PrintT("x")\n', told(), base=TLC),
    row("beside what can not be read", f"D == {BAD}\n", told(f"DEFINITION D {at(6)}"), base=next_is('Assert(x >= 0, "no") /\\ x\' = x + 1')),
    row("of what can not be read", f"D == {BAD}\n", refused(f"{EE} {at(6, 6)}", "Next"), base=next_is('Assert(D, "no") /\\ x\' = x + 1')),
    row("what is printed is dropped", f"D == {BAD}\n", told(f"DEFINITION D {at(6)}"), base=next_is("PrintT(D) /\\ x' = x + 1")),
    row("without TLC", "", refused(f"V1 UnknownName Assert {at(5, 9)}"), base=next_is('Assert(TRUE, "no") /\\ x\' = x + 1').replace(", TLC", "")),
    row("with another number of arguments", "", refused(f"V1 UnknownName Assert {at(5, 9)}"), base=next_is("Assert(TRUE) /\\ x' = x + 1")),
    row("an operator of its own", f"Assert(a, b) == b = 1\nD == {BAD}\n", told(f"DEFINITION D {at(7)}"), base=next_is("Assert(FALSE, 1) /\\ x' = x + 1")),
    row("one of its own that is not read", f"Assert(a, b) == {BAD}\n", refused(f"{EE} {at(6, 17)}", "Next"), base=next_is("Assert(TRUE, 1) /\\ x' = x + 1")),
    row("one of a LET", f"D == {BAD}\n", told(f"DEFINITION D {at(6)}"), base=next_is("LET Assert(a, b) == b = 1 IN Assert(FALSE, 1) /\\ x' = x + 1")),
    row("a bound name", f"D == {BAD}\n", told(f"DEFINITION D {at(6)}"), base=next_is("\\E PrintT \\in {1} : x' = x + PrintT")),
    row("another of a LET, behind it", "", faults(5, 60), base=next_is('(LET Assert(a, b) == b = 1 IN Assert(FALSE, 1)) /\\ Assert(FALSE, 1) /\\ x\' = x + 1')),
    row("a parameter of its name", "F(PrintT, n) == n + PrintT\n", told(), base=next_is("PrintT(x) /\\ x' = F(1, x)")),
    row("in a module that is extended", "", told(), base="---- MODULE Counter ----\nEXTENDS Base\nNext == x' = x + 1 /\\ D\n", Base=BELOW.replace("Integers", "Integers, TLC").replace("D == 1", "D == PrintT(x)") + END),
    row("in the module of an instance, where the name means nothing", "I == INSTANCE Other WITH y <- x\n", told(f"DEFINITION I!D {at(4, file='Other')}"), base=TLC,
        Other="---- MODULE Other ----\nEXTENDS TLC\nVARIABLE y\nD == PrintT(y)\n" + END),
    row("what the configuration puts in its place", "Held(a, b) == TRUE\n", refused(f"V1 UnknownName Assert {at(5, 9)}"),
        base=next_is('Assert(FALSE, "no") /\\ x\' = x + 1'), A="INIT Init\nNEXT Next\nCONSTANT Assert <- Held\n"),
    row("an algorithm whose assertion holds", "", TOLD_ALGORITHM, base=TRANSLATED.replace("LIMIT", "3")),
    row("an algorithm whose assertion fails", "", faults(17, 9, '{"pc":"A","x":0}'), base=TRANSLATED.replace("LIMIT", "0")),
]

ROWS = {
    "passed over": PASSED_OVER,
    "needed": NEEDED,
    "extended": EXTENDED,
    "local": LOCAL,
    "brought": BROUGHT,
    "pruned": PRUNED,
    "alone": ALONE,
    "as ever": AS_EVER,
    "strict first": STRICT_FIRST,
    "TLC's calls": TLC_CALLS,
}
