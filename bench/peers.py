#!/usr/bin/env python3
"""Runs the proved program beside programs that do the same job, in turns, and prints ratios.

peers.py [--rounds N] [--workers N] [--loads A,B] [--also LOOKUP] [--check]

It makes the loads and builds peer_ck.c and peer_ck_list.c into bench/out, which git doesn't keep. Each round runs each program once on
each load, in an order that turns by one from round to round, so that a busy moment hits all alike; the report goes to
/dev/null. Shown are medians over the rounds, and their ratios to peer_ck's: user and system time together, time by the
clock, and the greatest resident set. All programs get memory as lookup.sh asks for it (--small-pages: as glibc gives it). --check compares the reports in place of that, of loads with but one right report.

Needed: the proved program at crates/lookup/out/lookup (`./lookup.sh` builds it), gcc, Debian's libck-dev and time.
"""
import argparse
import hashlib
import os
import random
import resource
import statistics
import subprocess
import sys
import tempfile
import time
from itertools import chain

HERE = os.path.dirname(os.path.abspath(__file__))
OUT = os.path.join(HERE, "out")
LOOKUP = os.path.join(HERE, "..", "crates", "lookup", "out", "lookup")
PROGRAMS = {
    "table": {
        "peer_ck": [os.path.join(OUT, "peer_ck")],
        "lookup": [LOOKUP, "table"],
        "awk": ["awk", "-f", os.path.join(HERE, "peer.awk")],
        "python": [sys.executable, os.path.join(HERE, "peer.py")],
    },
    "held": {
        "peer_ck": [os.path.join(OUT, "peer_ck")],
        "lookup": [LOOKUP, "table"],
    },
    "list": {
        "peer_ck": [os.path.join(OUT, "peer_ck_list")],
        "lookup": [LOOKUP, "list"],
    },
}
TAKE_WORKERS = ("peer_ck", "lookup", "also")
GCC = ["gcc", "-O3", "-std=gnu11", "-Wall", "-Wextra", "-pthread"]
MILLION = 1_000_000


# Of the tables each load has but one right report: a query comes after a `wait` for all updates.


def few_sets(rng):
    """a million updates of 8 keys, and no query"""
    yield "u", (f"set {rng.randrange(1, 9)} {rng.randrange(2**40)}" for _ in range(MILLION))
    yield "q1", ["# nothing is asked"]


def few_gets(rng):
    """a million queries, less one line for the wait, of 8 keys"""
    yield "u", (f"set {key} {rng.randrange(2**40)}" for key in range(1, 9))
    yield "q1", chain(["wait 8"], (f"get {rng.randrange(1, 9)}" for _ in range(MILLION - 1)))


def mixed(rng):
    """a million updates and as many queries of 50,000 keys"""
    yield "u", (f"set {1 + i % 50_000} {i}" for i in range(MILLION))
    yield "q1", chain([f"wait {MILLION}"], (f"get {1 + i * 7919 % 50_000}" for i in range(MILLION - 1)))


def wide(rng):
    """64 query files, each of which waits for all updates"""
    keys = rng.sample(range(1, 1 << 40), 60_000)
    yield "u", (f"set {key} {rng.randrange(2**32)}" for key in keys[:50_000])
    for file in range(1, 65):
        yield f"q{file}", ["wait 50000"] + [f"get {rng.choice(keys)}" for _ in range(20_000)]


def churn(rng):
    """a million updates by which at most 40,000 keys come and go, and 4 files of 1,000 queries"""
    live, updates = [], []
    for i in range(MILLION):
        if len(live) < 1_000 or (len(live) < 40_000 and rng.random() < 0.52):
            live.append(rng.randrange(1, 1 << 63))
            updates.append(f"set {live[-1]} {i}")
        else:
            place = rng.randrange(len(live))
            live[place], live[-1] = live[-1], live[place]
            updates.append(f"del {live.pop()}")
    yield "u", updates
    for file in range(1, 5):
        yield f"q{file}", [f"wait {MILLION}"] + [f"get {rng.choice(live)}" for _ in range(1_000)]


def low_key(rng):
    """65,536 keys, and then one key below them that is set and deleted in turn, half a million times"""
    yield "u", chain((f"set {key} 1" for key in range(2, 65_538)), ("set 1 1" if i % 2 else "del 1" for i in range(MILLION - 65_536)))
    yield "q1", [f"wait {MILLION}", "get 1"]


def in_turn(rng):
    """20,000 updates and as many queries, each of which waits for the other kind's last"""
    yield "u", chain.from_iterable((f"set {1 + i % 100} {i}", f"hold 1 {i + 1}") for i in range(20_000))
    yield "q1", chain.from_iterable((f"wait {i + 1}", f"get {1 + i % 100}") for i in range(20_000))


def changes_of(rng):
    """4,096 members, and then 200 times 50 drops and adds and a commit"""
    live = [rng.randrange(1 << 40) for _ in range(4_096)]
    yield from (f"add {member}" for member in live)
    yield "commit"
    for _ in range(200):
        for _ in range(50):
            place = rng.randrange(len(live))
            yield f"drop {live[place]}"
            live[place] = live[-1]
            live[-1] = rng.randrange(1 << 40)
            yield f"add {live[-1]}"
        yield "commit"


def views(rng):
    """4 files of 250 views of 4,096 members, beside 20,000 edits and 200 commits"""
    yield "u", changes_of(rng)
    for file in range(1, 5):
        yield f"q{file}", ["wait 4097"] + ["all"] * 250


def late_views(rng):
    """the same edits, and then 4 files of 25 views"""
    yield "u", changes_of(rng)
    for file in range(1, 5):
        yield f"q{file}", ["wait 24297"] + ["all"] * 25


KIND = {few_sets: "table", few_gets: "table", mixed: "table", wide: "table", churn: "table", low_key: "table", in_turn: "held", views: "list", late_views: "list"}
LOADS = {load.__name__: load for load in KIND}
MANY_REPORTS = ("views",)


def programs_of(load):
    return PROGRAMS[KIND[LOADS[load]]]


def files_of(load):
    """The names of a load's files, the update file first. They are made where they aren't there."""
    folder = os.path.join(OUT, load)
    names = []
    os.makedirs(folder, exist_ok=True)
    for name, lines in LOADS[load](random.Random(load)):
        path = os.path.join(folder, name)
        names.append(path)
        if not os.path.exists(path):
            with open(path + ".part", "w") as file:
                file.writelines(line + "\n" for line in lines)
            os.rename(path + ".part", path)
    return names


def command(load, program, workers, files):
    words = programs_of(load)[program]
    return words + (["--workers", str(workers)] if program in TAKE_WORKERS else []) + files


def once(words):
    """Milliseconds of the processor and by the clock, and KiB at most. The small parent `time` has a small resident set."""
    with tempfile.NamedTemporaryFile("r") as told, open(os.devnull, "w") as nowhere:
        begun, before = time.perf_counter(), resource.getrusage(resource.RUSAGE_CHILDREN)
        done = subprocess.run(["/usr/bin/time", "-q", "-o", told.name, "-f", "%M"] + words, stdout=nowhere, stderr=nowhere)
        clock, after = time.perf_counter() - begun, resource.getrusage(resource.RUSAGE_CHILDREN)
        if done.returncode:
            sys.exit(f"{words[0]} ended with status {done.returncode}")
        most = int(told.read())
    cpu = after.ru_utime + after.ru_stime - before.ru_utime - before.ru_stime
    return cpu * 1000, clock * 1000, most


def measure(loads, rounds, workers):
    print(f"{os.cpu_count()} processors, load {os.getloadavg()[0]:.1f}, {rounds} rounds, {workers} workers")
    for load in loads:
        files = files_of(load)
        programs = list(programs_of(load))
        taken = {program: [] for program in programs}
        for round in range(rounds + 1):
            turn = round % len(programs)
            for program in programs[turn:] + programs[:turn]:
                one = once(command(load, program, workers, files))
                if round:  # the first round brings the files into memory
                    taken[program].append(one)
        middle = {program: [statistics.median(column) for column in zip(*taken[program])] for program in programs}
        print(f"\n{load:9} {'processor':>16} {'clock':>16} {'memory':>18}")
        for program in programs:
            cells = zip(middle[program], middle["peer_ck"])
            (cpu, cpu_ratio), (clock, clock_ratio), (most, most_ratio) = [(mine, mine / base) for mine, base in cells]
            print(f"{program:9} {cpu:7.0f} ms {cpu_ratio:5.2f} {clock:7.0f} ms {clock_ratio:5.2f} {most / 1024:7.1f} MiB {most_ratio:6.2f}")


def check(loads, workers):
    alike = True
    for load in loads:
        if load in MANY_REPORTS:
            continue
        files = files_of(load)
        sums = {}
        for program in programs_of(load):
            report = subprocess.run(command(load, program, workers, files), stdout=subprocess.PIPE).stdout
            sums[program] = hashlib.sha256(report).hexdigest()[:16]
        same = len(set(sums.values())) == 1
        alike = alike and same
        print(f"{load}: {'all alike' if same else sums}")
    sys.exit(0 if alike else 1)


def main():
    words = argparse.ArgumentParser(description=__doc__, formatter_class=argparse.RawDescriptionHelpFormatter)
    words.add_argument("--rounds", type=int, default=7)
    words.add_argument("--workers", type=int, default=4)
    words.add_argument("--loads", default=",".join(LOADS))
    words.add_argument("--also", help="a second build of lookup, to be compared to the first")
    words.add_argument("--small-pages", action="store_true", help="without pages of 2 MiB for large pieces of memory")
    words.add_argument("--check", action="store_true")
    words = words.parse_args()
    if words.also:
        for kind, programs in PROGRAMS.items():
            programs["also"] = [os.path.abspath(words.also)] + programs["lookup"][1:]
    if not words.small_pages:
        os.environ["GLIBC_TUNABLES"] = "glibc.malloc.hugetlb=1"
    os.makedirs(OUT, exist_ok=True)
    for peer in ("peer_ck", "peer_ck_list"):
        subprocess.run(GCC + ["-o", os.path.join(OUT, peer), os.path.join(HERE, peer + ".c"), "-lck"], check=True)
    loads = words.loads.split(",")
    if words.check:
        check(loads, words.workers)
    measure(loads, words.rounds, words.workers)


if __name__ == "__main__":
    main()
