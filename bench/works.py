#!/usr/bin/env python3
"""Writes a script of one work: `works.py NAME SIZE..`. Without arguments it lists the works.

Time a run with
    python3 bench/works.py goals 20000 > /tmp/goals.hol && time crates/holp/out/holp run /tmp/goals.hol > /tmp/goals.out
`bench/table.py` runs all of them."""
import sys


def runaway(kind):
    """A refiner that REPEAT never sees refused: assume, cases, mp or choose."""
    refiners = {
        "assume": "ASSUME_TAC TRUTH",
        "cases": "DISJ_CASES_TAC either",
        "mp": "MP_TAC TRUTH THEN DISCH_TAC",
        "choose": "CHOOSE_TAC some",
    }
    yield "thm either = TAUT `(p:bool) \\/ ~(p:bool)` ;;"
    yield "thm here = REFL `(x:A)` ;;"
    yield "thm some = EXISTS `?y:A. y = (x:A)` `(x:A)` here ;;"
    yield "goal `(q:bool)` ;;"
    yield f"e REPEAT ({refiners[kind]}) ;;"


def loops(count):
    """So many commands that loop, each refused when its steps are spent."""
    yield "goal `T` ;;"
    for _ in range(int(count)):
        yield "e REPEAT ALL_TAC ;;"


def goals(count):
    """So many trivial goals, each set, closed by one refiner and stored."""
    for number in range(int(count)):
        yield "goal `T` ;;"
        yield "e ACCEPT_TAC TRUTH ;;"
        yield f"save t{number} ;;"


def tautologies(count):
    """So many goals, each closed by TAUT_TAC in one `e`."""
    for _ in range(int(count)):
        yield "goal `(p:bool) /\\ (q:bool) ==> (q:bool) /\\ (p:bool)` ;;"
        yield "e TAUT_TAC ;;"


def tree(depth, leaf, inner):
    """A full binary tree of so many levels."""
    text = leaf
    for _ in range(depth):
        text = inner.format(text, text)
    return text


def nothing(depth, times):
    """REWRITE_TAC with a rule that fits no part of a goal of 4 * 2^depth - 3 nodes, so many times."""
    yield "thm not = TAUT `~~(p:bool) <=> (p:bool)` ;;"
    yield f"goal `{tree(int(depth), '(x:bool)', '((f:bool->bool->bool) {} {})')}` ;;"
    for _ in range(int(times)):
        yield "e REWRITE_TAC [not] ;;"


def disch(count):
    """DISCH_TAC so many times in one `e`, on a goal of so many implications."""
    yield "goal `" + "".join(f"(p{number}:bool) ==> " for number in range(int(count))) + "T` ;;"
    yield "e " + " THEN ".join(["DISCH_TAC"] * int(count)) + " ;;"


def spec(count):
    """SPEC down through so many universal quantifiers, one after another."""
    names = range(1, int(count) + 1)
    quantified = "".join(f"!x{name}:bool. " for name in names)
    body = " /\\ ".join(f"(x{name}:bool)" for name in names)
    yield f"thm s0 = ASSUME `{quantified}{body}` ;;"
    for name in names:
        yield f"thm s{name} = SPEC `(z{name}:bool)` s{name - 1} ;;"


def peel(count):
    """The host's refiner `peel` so many times in one `e`, on a goal of so many universal quantifiers."""
    yield "goal `" + "".join(f"!x{number}:bool. " for number in range(int(count))) + "T` ;;"
    yield "e " + " THEN ".join(["HOST peel"] * int(count)) + " ;;"


def peels(count):
    """The same goal, and `e HOST peel` so many times, which shows each goal on the way."""
    yield "goal `" + "".join(f"!x{number}:bool. " for number in range(int(count))) + "T` ;;"
    for _ in range(int(count)):
        yield "e HOST peel ;;"


def conjuncts(count):
    """A goal of so many conjuncts, closed by one `e`."""
    yield "goal `" + " /\\ ".join(f"((p{number}:bool) ==> (p{number}:bool))" for number in range(int(count))) + "` ;;"
    yield "e REPEAT CONJ_TAC THEN DISCH_TAC THEN ASSUMPTION_TAC ;;"
    yield "save all ;;"


def steps(count):
    """A proof of one goal in so many commands `e`: a goal of half as many conjuncts, taken off one by one."""
    parts = int(count) // 2 + 1
    yield "goal `" + " /\\ ".join(["T"] * parts) + "` ;;"
    for _ in range(parts - 1):
        yield "e CONJ_TAC ;;"
        yield "e ACCEPT_TAC TRUTH ;;"
    yield "e ACCEPT_TAC TRUTH ;;"
    yield "save all ;;"


def atom(name):
    return f"({name}:bool)"


def adder(bits):
    """TAUT: an adder of so many bits whose carries ripple has the sums and the carry of one that looks ahead: 3 * bits + 1 atoms."""
    bits = int(bits)
    a, b, c = ([atom(f"{name}{bit}") for bit in range(bits + 1)] for name in "abc")
    one = [f"({a[bit]} \\/ {b[bit]})" for bit in range(bits)]
    both = [f"({a[bit]} /\\ {b[bit]})" for bit in range(bits)]
    ripple = [f"({c[bit + 1]} <=> {both[bit]} \\/ {c[bit]} /\\ {one[bit]})" for bit in range(bits)]

    def ahead(bit):
        ways = [[both[start]] + one[start + 1 : bit] for start in range(bit)] + [[c[0]] + one[:bit]]
        return "(" + " \\/ ".join("(" + " /\\ ".join(way) + ")" for way in ways) + ")"

    def total(bit, carry):
        return f"({a[bit]} <=> {b[bit]} <=> {carry})"

    sums = [f"({total(bit, c[bit])} <=> {total(bit, ahead(bit))})" for bit in range(1, bits)]
    rippled, looked = " /\\ ".join(ripple), " /\\ ".join(sums + [f"({c[bits]} <=> {ahead(bits)})"])
    yield f"thm adder = TAUT `{rippled} ==> {looked}` ;;"


def parity(atoms):
    """TAUT: the parity of so many negated atoms (an even number) is that of the atoms."""
    names = [atom(f"x{number}") for number in range(int(atoms))]
    negated = " <=> ".join("~" + name for name in names)
    yield f"thm parity = TAUT `({negated}) <=> {' <=> '.join(names)}` ;;"


def drawn(places):
    """A formula of so many places of fourteen atoms, the same each time."""
    state = 1

    def draw(bound):
        nonlocal state
        state = (state * 1103515245 + 12345) % 2147483648
        return state // 65536 % bound

    def formula(size):
        if size == 1:
            return ("~" if draw(4) == 0 else "") + "abcdefghijklmn"[draw(14)]
        left = 1 + draw(size - 1) if size < 8 else size // 2
        connective = ["/\\", "\\/", "==>", "<=>"][draw(4)]
        return f"({formula(left)} {connective} {formula(size - left)})"

    return formula(places)


def itself(connective, places):
    """TAUT: a formula of so many places implies itself, or is equal to itself: imp or iff."""
    for name in "abcdefghijklmn":
        yield f"var {name} : bool ;;"
    formula = drawn(int(places))
    yield f"thm itself = TAUT `{formula} {'==>' if connective == 'imp' else '<=>'} {formula}` ;;"


WORKS = [runaway, loops, goals, tautologies, nothing, disch, spec, peel, peels, conjuncts, steps, adder, parity, itself]

if __name__ == "__main__":
    works = {work.__name__: work for work in WORKS}
    if len(sys.argv) < 2 or sys.argv[1] not in works:
        for name, work in works.items():
            arguments = " ".join(argument.upper() for argument in work.__code__.co_varnames[: work.__code__.co_argcount])
            print(f"{name} {arguments}: {work.__doc__}", file=sys.stderr)
        sys.exit(2)
    for line in works[sys.argv[1]](*sys.argv[2:]):
        print(line)
