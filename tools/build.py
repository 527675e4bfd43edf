#!/usr/bin/env python3
"""Proves every crate that the program is made of, builds the program and runs it on an example.

usage: tools/build.py [--jobs N] [--plan] [--crate NAME]

--jobs N      at most N proofs at once; as many as there are processors where it is left out
--plan        proves nothing: prints in which order the crates would be proved, and when, beside the least time that
              any order takes
--crate NAME  that crate and those below it, in the place of the program

A crate is proved as soon as all crates are that it depends on, and of those that wait the one comes first on which the
longest chain of proofs stands. How long a proof takes is what it took in the last build here (bin/last-build), else
what tools/crate_minutes.txt says.

`rt all check` proves the same, by the same calls of the kit. But it reads every crate before its first proof, takes
the crates by how many stand below them, and waits in one whose libraries are not proved yet. And it sums up the files
below a crate once for each way that leads down to them, which takes minutes at the highest crates. `rt check` lets
nobody else work on a crate below. So the calls are made here; with a kit that lacks one, `rt all check` is what runs.
"""
import argparse
import heapq
import os
import queue
import signal
import subprocess
import sys
import tempfile
import threading
import time
from pathlib import Path

top = Path(__file__).resolve().parent.parent
TABLE = top / "tools" / "crate_minutes.txt"
LAST = top / "bin" / "last-build"
EXAMPLE = ["infer", "../../examples/facts.pl"]
# What a proof needs at most; the largest that was seen took 1.6 GB.
PROOF_BYTES = 1_700_000_000
# The kit gives a proof by itself no more of its jobs.
MOST_JOBS = 4
# What is called of the kit's library.
CALLS = """Crate.below Crate.build_rlib Crate.is_built Crate.run Crate.stamp fits guarded help_of lock stop_on_links
stop_on_unread""".split()


def clock(seconds):
    """A time as minutes and seconds."""
    return f"{int(seconds) // 60}:{int(seconds) % 60:02}"


def table(path):
    """The numbers of a file, by the names before them."""
    lines = path.read_text().splitlines() if path.exists() else []
    return {name: float(number) for name, number in (line.split() for line in lines if len(line.split()) == 2)}


def dependencies():
    """What each crate of the repository depends on there."""
    lines = [line.partition("#")[0].partition(":") for line in (top / "crates.txt").read_text().splitlines()]
    uses = {name.split()[0]: rest.split() for name, colon, rest in lines if colon}
    return {name: [other for other in needs if other in uses] for name, needs in uses.items()}


def at_or_below(name, needs):
    """The names of a crate and of all that it stands on."""
    found, left = set(), [name]
    while left:
        crate = left.pop()
        if crate not in found:
            found.add(crate)
            left += needs[crate]
    return found


def code_lines(name):
    return sum(path.read_bytes().count(b"\n") for path in (top / "crates" / name / "src").rglob("*.rt"))


def expected_seconds(names):
    """How long the proof of each crate should take: by the last build, else by the table, else by its lines."""
    last, minutes = table(LAST), table(TABLE)
    both = [name for name in last if name in minutes]
    scale = sum(last[name] for name in both) / sum(minutes[name] for name in both) if both else 60.0
    listed = [name for name in minutes if (top / "crates" / name).is_dir()]
    per_line = scale * sum(minutes[name] for name in listed) / sum(map(code_lines, listed))
    return {name: last.get(name) or scale * minutes.get(name, 0) or per_line * code_lines(name) for name in names}


def chains(names, needs, seconds):
    """How long the longest chain of proofs takes that begins with each crate, each proof needing the one before."""
    users = {name: [other for other in names if name in needs[other]] for name in names}
    found = {}

    def chain(name):
        if name not in found:
            found[name] = seconds[name] + max(map(chain, users[name]), default=0.0)
        return found[name]

    for name in names:
        chain(name)
    return found


class Plan:
    """Which crates are proved, which run and which wait."""

    def __init__(self, names, needs, seconds):
        self.needs = {name: set(needs[name]) & set(names) for name in names}
        self.seconds, self.chain = seconds, chains(names, needs, seconds)
        self.waiting, self.running, self.proved = set(names), {}, set()

    def copy(self):
        other = Plan([], {}, {})
        other.needs, other.seconds, other.chain = self.needs, self.seconds, self.chain
        other.waiting, other.running, other.proved = set(self.waiting), dict(self.running), set(self.proved)
        return other

    def ready(self):
        """The crates that wait and lack no other one."""
        return [name for name in self.waiting if self.needs[name] <= self.proved]

    def next_crate(self):
        """The crate whose turn it is, or None."""
        return max(self.ready(), key=lambda name: (self.chain[name], name), default=None)

    def begin(self, name, now):
        self.waiting.remove(name)
        self.running[name] = now

    def end(self, name):
        del self.running[name]
        self.proved.add(name)

    def put_back(self, name):
        del self.running[name]
        self.waiting.add(name)

    def simulated(self, lanes, now=0.0):
        """When each crate would begin and end that runs or waits, with so many proofs at once."""
        plan, times = self.copy(), []
        ends = [(max(now, begun + self.seconds[name]), begun, name) for name, begun in self.running.items()]
        heapq.heapify(ends)
        while plan.waiting or ends:
            name = plan.next_crate() if len(ends) < lanes else None
            if name:
                plan.begin(name, now)
                heapq.heappush(ends, (now + self.seconds[name], now, name))
            else:
                now, begun, name = heapq.heappop(ends)
                times.append((begun, now, name))
                plan.end(name)
        return times

    def bound(self, lanes):
        """What no order of all proofs can do without: the longest chain, and all of them shared among the lanes."""
        return max(max(self.chain.values(), default=0.0), sum(self.seconds[name] for name in self.needs) / lanes)


def print_plan(plan, lanes):
    times = sorted(plan.simulated(lanes))
    for begin, end, name in times:
        print(f"{clock(begin):>7} {clock(end):>7} {name}")
    whole, bound = max(end for _, end, _ in times), plan.bound(lanes)
    work, chain = sum(plan.seconds[name] for name in plan.needs), max(plan.chain.values())
    print(f"{len(times)} crates, {clock(work)} of one processor; the longest chain {clock(chain)}")
    print(f"{lanes} at once: {clock(whole)}, {whole / bound:.2f} times the bound {clock(bound)}")


def kit_library():
    """The library of the command rt, or None where it has not what is called here."""
    page = subprocess.run(["rt", "doc"], stdout=subprocess.PIPE, text=True, check=True).stdout.strip()
    sys.path.insert(0, str(Path(page).parent / "bin"))
    sys.dont_write_bytecode = True
    try:
        import rtlib
    except ImportError:
        return None
    for call in CALLS:
        found = rtlib
        for word in call.split("."):
            found = getattr(found, word, None)
        if found is None:
            return None
    return rtlib


def keep(seconds):
    """Keeps how long proofs took, for the next build."""
    LAST.parent.mkdir(exist_ok=True)
    known = {**table(LAST), **seconds}
    LAST.write_text("".join(f"{name} {known[name]:.1f}\n" for name in sorted(known)))


class Build:
    """Proves crates side by side by the kit's own calls."""

    def __init__(self, rtlib, top_crate, plan, lanes):
        # The kit's guard ends what was started when this program ends, and has to be there before the first thread.
        rtlib.guarded()
        signal.signal(signal.SIGINT, signal.SIG_DFL)
        for verb in ("build", "check"):
            rtlib.help_of(verb)
        self.kit = rtlib
        self.crates = {it.name: it for it in [*top_crate.below(), top_crate]}
        self.plan, self.lanes = plan, max(1, self.room(lanes))
        self.ended, self.spent, self.failed = queue.SimpleQueue(), {}, False
        top_crate.held = rtlib.lock(self.crates.values())
        for it in self.crates.values():
            rtlib.stop_on_unread(it.folder, self.crates.values())
            rtlib.stop_on_links(it.folder)
            os.makedirs(f"{it.folder}/out", exist_ok=True)
        self.pass_over_built()

    def room(self, most):
        """For how many proofs there are processors and memory now, at most so many."""
        return next((count for count in range(most, 0, -1) if self.kit.fits(*[PROOF_BYTES] * count)), 0)

    def pass_over_built(self):
        """Counts the libraries as proved that an earlier run proved as they stand, each after those below it."""
        for name, crate in self.crates.items():
            if not crate.is_program and self.plan.needs[name] <= self.plan.proved and crate.is_built():
                self.settle(name)
                self.plan.waiting.remove(name)
                self.plan.proved.add(name)

    def settle(self, name):
        """Keeps the sum over the files of a proved crate and those below it, which the kit forms anew at each call."""
        kept = self.crates[name].stamp()
        self.crates[name].stamp = lambda: kept

    def prove(self, name, jobs):
        """Proves a crate, and builds and runs it if it is the program. What that says is shown if it fails."""
        crate, flags = self.crates[name], ["--jobs", str(jobs)]
        with tempfile.TemporaryFile("a+", errors="replace") as crate.out:
            try:
                status = crate.run(flags, EXAMPLE) if crate.is_program else crate.build_rlib(flags, anew=False)
                if not status and not crate.is_program:
                    self.settle(name)
            except (Exception, SystemExit) as fault:
                status = 1
                print(fault, file=crate.out)
            crate.out.seek(0)
            self.ended.put((name, status, crate.out.read()))

    def begin_next(self, now):
        """Begins the next proof, if there is one and room for it, with the processors that no other crate waits for."""
        name = None if self.failed else self.plan.next_crate()
        spare = self.lanes - len(self.plan.running)
        if not name or spare < 1 or (self.plan.running and not self.room(1)):
            return False
        jobs = max(1, self.room(min(spare - len(self.plan.ready()) + 1, MOST_JOBS)))
        self.plan.begin(name, now)
        threading.Thread(target=self.prove, args=(name, jobs), daemon=True).start()
        return True

    def left(self, now):
        """How many seconds the rest should take, if this machine goes on as it did so far."""
        expected = sum(self.plan.seconds[name] for name in self.spent)
        whole = max((end for _, end, _ in self.plan.simulated(self.lanes, now)), default=now) - now
        return whole * (sum(self.spent.values()) / expected if expected else 1.0)

    def end_one(self, begun):
        """Waits until a proof has ended, and says so."""
        name, status, said = self.ended.get()
        now = time.monotonic() - begun
        seconds = now - self.plan.running[name]
        if status == -signal.SIGKILL and self.lanes > 1:
            self.lanes -= 1
            self.plan.put_back(name)
            print(f"{name} was killed, most likely for memory: {self.lanes} at once from here on", flush=True)
            return
        self.plan.end(name)
        if status:
            self.failed = True
            print("\n".join([f"== {name}", *said.splitlines()[-40:]]), flush=True)
            return
        self.spent[name] = seconds
        keep({name: seconds})
        rest = f"; some {clock(self.left(now))} left" if self.plan.waiting or self.plan.running else ""
        count = f"{len(self.plan.proved)} of {len(self.crates)}"
        print(f"[{count}] {name} in {clock(seconds)}, {clock(now)} so far{rest}", flush=True)

    def prove_all(self):
        """Whether all is proved. After a failure no proof begins, and those that run end."""
        begun = time.monotonic()
        while self.begin_next(time.monotonic() - begun) or self.plan.running:
            if len(self.plan.running) >= self.lanes or not self.begin_next(time.monotonic() - begun):
                self.end_one(begun)
        return not self.failed


def by_the_kit(name, jobs):
    """The same by the kit's commands, which plan less well."""
    folder = top / "crates" / name
    status = subprocess.run(["rt", "all", "check", "--jobs", str(jobs)], cwd=folder).returncode
    if not status and (folder / "src" / "main.rt").exists():
        status = subprocess.run(["rt", "run", "--", *EXAMPLE], cwd=folder).returncode
    return status


def main():
    words = argparse.ArgumentParser(usage=__doc__.split("\n\n")[1].removeprefix("usage: "))
    words.add_argument("--jobs", type=int, default=len(os.sched_getaffinity(0)))
    words.add_argument("--plan", action="store_true")
    words.add_argument("--crate", default="cti")
    asked = words.parse_args()
    lanes, needs = max(1, asked.jobs), dependencies()
    if asked.crate not in needs:
        sys.exit(f"crates.txt names no crate {asked.crate}")
    names = at_or_below(asked.crate, needs)
    plan = Plan(names, needs, expected_seconds(names))
    if asked.plan:
        print_plan(plan, lanes)
        return 0
    rtlib = kit_library()
    if not rtlib:
        return by_the_kit(asked.crate, lanes)
    folder = str(top / "crates" / asked.crate)
    os.chdir(folder)
    build = Build(rtlib, rtlib.Crate(folder, str(top), {}), plan, lanes)
    by = "last build here" if LAST.exists() else "table in docs/gate.md; a slow machine takes twice as long and more"
    if plan.waiting:
        whole = clock(build.left(0.0))
        print(f"{len(plan.waiting)} of {len(names)} crates are left to prove: some {whole} by the {by}.", flush=True)
    return 0 if build.prove_all() else 1


if __name__ == "__main__":
    sys.exit(main())
