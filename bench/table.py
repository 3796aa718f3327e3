#!/usr/bin/env python3
"""Measures the works of this folder and writes one table: `table.py PROGRAM [--hol-light PEER] [--only WORD] [--runs 5]
[--limit 60] [--logs] [--write FILE]`.

PROGRAM is a built `holp`, PEER what `hol_light.sh` builds. Each figure is the least of some runs (--runs, or fewer, where these
take ten seconds), in seconds of the processor, without the start, which is a row of its own; a peak of memory is the most of
the runs. A run may take so many seconds of the processor (--limit), and 3 GB. With --write the table goes into FILE, between
its lines `<!-- table -->` and `<!-- end -->`. It wants /usr/bin/time."""
import argparse
import datetime
import os
import pathlib
import platform
import resource
import signal
import subprocess
import sys
import tempfile

BENCH = pathlib.Path(__file__).resolve().parent
ENOUGH, LIMIT, MEMORY, TURNS = 10.0, 60, 3_000_000_000, 25

# what is said of it; the generator, with {} for its size; the size, and half of it; how it is run; the peer's arguments, with
# {log} for the log that both check
WORKS = [
    ("{} formulas assumed, joined, discharged, undischarged", "hypotheses.sh {}", 600, 300, "run", "hypotheses {}"),
    ("INST ten times over 2^{} leaves", "printing.sh INST {}", 16, 15, "run", "printing INST {}"),
    ("INST_TYPE ten times over 2^{} leaves", "printing.sh INST_TYPE {}", 16, 15, "run", "printing INST_TYPE {}"),
    ("SPEC through {} `!`, one by one", "works.py spec {}", 200, 100, "run", "spec {}"),
    ("`check` of its log, {} `!`", "works.py spec {}", 100, 50, "check", "check {log}"),
    ("`check` of its log, {} `!`", "works.py spec {}", 200, 100, "check", "check {log}"),
    ("`check` of its log, {} `!`", "works.py spec {}", 300, 150, "check", "check {log}"),
    ("De Morgan by a conversion, tree of depth {}", "rewriting.sh conv tree {}", 11, 10, "run", "rewriting conv tree {}"),
    ("De Morgan by REWRITE_TAC, tree of depth {}", "rewriting.sh tactic tree {}", 11, 10, "run", "rewriting tactic tree {}"),
    ("{} negations by a conversion", "rewriting.sh conv negations {}", 1980, 990, "run", "rewriting conv negations {}"),
    ("{} negations by REWRITE_TAC", "rewriting.sh tactic negations {}", 1980, 990, "run", "rewriting tactic negations {}"),
    ("REWRITE_TAC finds nothing in 16,381 nodes, {} times", "works.py nothing 12 {}", 5, None, "run", "nothing 12 {}"),
    ("REWRITE_TAC finds nothing in 125 nodes, {} times", "works.py nothing 5 {}", 1000, 500, "run", "nothing 5 {}"),
    ("{} trivial goals, stored", "works.py goals {}", 20000, 10000, "run", "goals {}"),
    ("the same, with the log", "works.py goals {}", 20000, 10000, "log", None),
    ("{} goals of one TAUT_TAC each", "works.py tautologies {}", 2000, 1000, "run", "tautologies {}"),
    ("{} times DISCH_TAC in one `e`", "works.py disch {}", 800, 400, "run", "disch {}"),
    ("{} times `e HOST peel`", "works.py peels {}", 400, 200, "run", "peels {}"),
    ("{} times `HOST peel` in one `e`", "works.py peel {}", 400, 200, "run", "peel {}"),
    ("{} conjuncts closed in one `e`", "works.py conjuncts {}", 800, 400, "run", "conjuncts {}"),
    ("{} steps of one goal", "works.py steps {}", 1900, 950, "run", "steps {}"),
    ("TAUT: an adder of {} bits, 13 atoms", "works.py adder {}", 4, None, "run", "taut"),
    ("TAUT: the parity of {} atoms", "works.py parity {}", 14, None, "run", "taut"),
    ("TAUT: `t ==> t`, t of {} places, 7 kB", "works.py itself imp {}", 1000, 500, "run", "taut"),
    ("TAUT: `t ==> t`, t of {} places, 30 kB", "works.py itself imp {}", 4000, 2000, "run", "taut"),
    ("TAUT: `t <=> t`, t of {} places, 7 kB", "works.py itself iff {}", 1000, 500, "run", "taut"),
    ("TAUT: `t <=> t`, t of {} places, 30 kB", "works.py itself iff {}", 4000, 2000, "run", "taut"),
    ("TAUT: a chain of {} `<=>` and its mirror", "taut.sh mirror {}", 14, 7, "run", "taut"),
    ("REPEAT (ASSUME_TAC ..), refused", "works.py runaway assume", None, None, "run", "runaway assume"),
    ("REPEAT (DISJ_CASES_TAC ..), refused", "works.py runaway cases", None, None, "run", "runaway cases"),
    ("REPEAT (MP_TAC .. THEN DISCH_TAC), refused", "works.py runaway mp", None, None, "run", "runaway mp"),
    ("REPEAT (CHOOSE_TAC ..), refused", "works.py runaway choose", None, None, "run", "runaway choose"),
    ("REPEAT ALL_TAC once, refused", "works.py loops {}", 1, None, "run", None),
    ("{} times REPEAT ALL_TAC, refused", "works.py loops {}", 1000, 500, "run", None),
    ("`check` of {} rounds of six rules", "log.sh {} 20", 80000, 40000, "check log", "check {log}"),
    ("`check` of {} abstractions over one open term", "open.sh {} 18", 1000, 500, "check log", "check {log}"),
]


class Failed(Exception):
    """Why a run has no figure."""


def confine():
    resource.setrlimit(resource.RLIMIT_AS, (MEMORY, MEMORY))
    resource.setrlimit(resource.RLIMIT_CPU, (LIMIT, LIMIT + 5))
    resource.setrlimit(resource.RLIMIT_CORE, (0, 0))
    try:
        resource.setrlimit(resource.RLIMIT_STACK, (resource.RLIM_INFINITY, resource.RLIM_INFINITY))
    except ValueError:
        pass


def once(command, script, room):
    """Runs a command: its seconds of the processor, its peak of memory in MB, its status, and what it said on standard error."""
    peak = room / "peak"
    with open(script) as source, open(room / "output", "w") as output, open(room / "errors", "w") as errors:
        timed = ["/usr/bin/time", "-q", "-f", "%M", "-o", str(peak)] + command
        before = resource.getrusage(resource.RUSAGE_CHILDREN)
        status = subprocess.run(timed, stdin=source, stdout=output, stderr=errors, preexec_fn=confine, check=False).returncode
        after = resource.getrusage(resource.RUSAGE_CHILDREN)
    if status == 128 + signal.SIGXCPU:
        raise Failed(f"no end in {LIMIT} s")
    seconds = after.ru_utime + after.ru_stime - before.ru_utime - before.ru_stime
    return seconds, int(peak.read_text().split()[-1]) / 1024, status, (room / "errors").read_text()


def least(command, script, room, figure, runs):
    """The least figure of some runs, and the most memory."""
    figures, peaks, spent = [], [], 0.0
    while len(figures) < runs and spent < ENOUGH:
        seconds, peak, status, errors = once(command, script, room)
        figures.append(figure(seconds, status, errors))
        peaks.append(peak)
        spent += seconds
    return min(figures), max(peaks)


def written(generator, to):
    """Writes what a generator says into a file."""
    name, *arguments = generator.split()
    with open(to, "w") as script:
        subprocess.run((["python3"] if name.endswith(".py") else ["sh"]) + [str(BENCH / name)] + arguments, stdout=script, check=True)


def own(program, how, script, room, start, runs):
    """The figure of `holp`."""

    def figure(seconds, status, errors):
        if status not in (0, 1):
            raise Failed(f"status {status}: {errors.strip().splitlines()[-1] if errors.strip() else ''}")
        return max(seconds - start, 0.0)

    log = room / "log"
    if how == "check log":
        return least([program, "check", str(script)], script, room, figure, runs)
    if how == "check":
        once([program, "run", str(script), "--log", str(log)], script, room)
        return least([program, "check", str(log)], script, room, figure, runs)
    command = [program, "run", str(script)] + (["--log", str(log)] if how == "log" else [])
    return least(command, script, room, figure, runs)


def log_share(program, script, room, start):
    """What the log costs besides, as a share of the run: the least figures of runs without it and with it, in turns."""
    command, log, least_two, spent = [program, "run", str(script)], ["--log", str(room / "log")], [float("inf")] * 2, 0.0
    for _ in range(TURNS):
        for which, words in enumerate(([], log)):
            seconds, _, status, errors = once(command + words, script, room)
            if status not in (0, 1):
                raise Failed(errors.strip().splitlines()[-1] if errors.strip() else f"status {status}")
            least_two[which] = min(least_two[which], max(seconds - start, 0.0))
            spent += seconds
        if spent > ENOUGH:
            break
    return f"{(least_two[1] - least_two[0]) / least_two[0]:.2f}" if least_two[0] > 0.004 else ""


def peers(peer, arguments, script, room, runs):
    """The figure of HOL Light."""

    def figure(_seconds, status, errors):
        if status != 0:
            raise Failed(errors.strip().splitlines()[-1][:60] if errors.strip() else f"status {status}")
        return float(errors.split()[-1])

    return least([peer] + arguments, script, room, figure, runs)[0]


def told(seconds):
    return f"{seconds:.2f}" if seconds >= 0.1 else f"{seconds:.3f}"


def row(work, size, options, room, start, is_compared):
    """One row's cells, and its figure."""
    title, generator, _, _, how, peer = work
    script = room / "script"
    written(generator.format(size), script)
    try:
        seconds, peak = own(options.program, how, script, room, start, options.runs)
        cells = [told(seconds), f"{peak:.0f}"]
        if options.logs:
            is_logged = is_compared and how == "run" and "REPEAT" not in title
            cells.append(log_share(options.program, script, room, start) if is_logged else "")
    except Failed as failed:
        seconds, cells = None, [str(failed), ""] + [""] * options.logs
    log = script if how == "check log" else room / "log"
    arguments = [] if peer is None else [word.format(size, log=log) for word in peer.split()]
    has_failed = False
    for extra, has_ratio in [(["--same"], True), (["--print"], True), ([], False)]:
        ratio = [""] if has_ratio else []
        is_one_way = how.startswith("check") and extra != ["--same"]
        if peer is None or options.hol_light is None or not is_compared or has_failed or is_one_way:
            cells += [""] + ratio
            continue
        try:
            other = peers(options.hol_light, arguments + extra, script, room, options.runs)
            if has_ratio and seconds is not None and other > 0.0005:
                ratio = [f"{seconds / other:.2f}"]
            cells += [told(other)] + ratio
        except Failed as failed:
            has_failed = True
            cells += [str(failed)] + ratio
    return cells, seconds


def machine():
    names = [line.split(":")[1].strip() for line in open("/proc/cpuinfo") if line.startswith("model name")]
    return f"{os.cpu_count()} processors, {names[0] if names else platform.machine()}"


def tables(options):
    """All lines of the tables."""
    commit = subprocess.run(["git", "-C", str(BENCH), "rev-parse", "--short", "HEAD"], capture_output=True, text=True, check=False).stdout.strip()
    load = f"{os.getloadavg()[0] / os.cpu_count():.1f}"
    yield f"{datetime.date.today()}, {machine()}, sources at {commit}; up to {options.runs} runs of at most {LIMIT} s, beside a load of {load} for each processor."
    yield ""
    yield f"| work | `holp`, s | half | peak, MB |{' its log |' * options.logs} the same, s | ratio | its printer, s | ratio | rules, s |"
    yield "|---" * (9 + options.logs) + "|"
    with tempfile.TemporaryDirectory() as folder:
        room = pathlib.Path(folder)
        empty = room / "empty"
        empty.write_text("")
        start, peak = own(options.program, "run", empty, room, 0.0, options.runs)
        other = ""
        if options.hol_light is not None:
            other = told(least([options.hol_light, "empty"], empty, room, lambda seconds, _status, _errors: seconds, options.runs)[0])
        yield f"| the start, which no other row counts | {told(start)} | | {peak:.0f} |{'  |' * options.logs} {other} | | | | |"
        for work in WORKS:
            title, generator, size, half, _, _ = work
            if options.only is not None and options.only not in title + generator:
                continue
            cells, seconds = row(work, size, options, room, start, True)
            times = ""
            if half is not None:
                _, before = row(work, half, options, room, start, False)
                if seconds is not None and before is not None and before > 0.002:
                    times = f"{seconds / before:.1f}"
            said = title.format("" if size is None else f"{size:,}")
            yield f"| {said} | " + " | ".join(cells[:1] + [times] + cells[1:]) + " |"


def main():
    global LIMIT
    parser = argparse.ArgumentParser(description=__doc__, formatter_class=argparse.RawDescriptionHelpFormatter)
    parser.add_argument("program", type=os.path.realpath)
    parser.add_argument("--hol-light", type=os.path.realpath)
    parser.add_argument("--only", help="rows whose title or generator has this word")
    parser.add_argument("--runs", type=int, default=5)
    parser.add_argument("--limit", type=int, default=LIMIT, help="seconds of the processor that a run may take")
    parser.add_argument("--logs", action="store_true", help="one column more: what the log costs besides, as a share of the run, both run in turns")
    parser.add_argument("--write", type=pathlib.Path, help="the page that gets the tables")
    options = parser.parse_args()
    LIMIT = options.limit
    os.nice(10)
    lines = []
    for line in tables(options):
        print(line, flush=True)
        lines.append(line)
    if options.write is not None:
        page = options.write.read_text()
        front, rest = page.split("<!-- table -->\n", 1)
        back = rest.split("<!-- end -->", 1)[1]
        options.write.write_text(front + "<!-- table -->\n" + "\n".join(lines) + "\n<!-- end -->" + back)


if __name__ == "__main__":
    sys.exit(main())
