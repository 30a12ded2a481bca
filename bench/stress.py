#!/usr/bin/env python3
"""Runs the proved program on random scripts with waits and holds, and judges each report twice.

stress.py [--runs N] [--seed N] [--lookup PATH] [--kinds table,list] [--keep DIR]

Each run has an update file, 1 to 6 query files, and 1 to 16 workers. No line is beyond what there is and no `hold` is a circle, so that
every script is accepted. A report of kind `table` is judged by `lookup judge`, and one of either kind by a plain program here, which keeps
to the manual (docs/SCRIPTS.md) and knows nothing of the program. The first report that one of them refuses, or on which they differ, ends
the runs: its files are kept.
"""
import argparse
import os
import random
import shutil
import subprocess
import sys
import tempfile
import time

HERE = os.path.dirname(os.path.abspath(__file__))
KEYS = [1, 2, 3, 5, 8, 2**64 - 1, 2**64, 2**128 - 2]
MOST_PAIRS = 262_144
MOST_MEMBERS = 4_096


def table_update(rng, keys):
    key = rng.choice(keys)
    return rng.choice(
        [f"set {key} {rng.randrange(100)}"] * 4 + [f"put {key} {rng.randrange(100)}", f"del {key}", f"del {key}", "tidy"]
    )


def list_update(rng, keys):
    return rng.choice([f"add {rng.randrange(4)}"] * 3 + [f"drop {rng.randrange(4)}", "commit", "commit"])


def query_file(rng, kind, keys, updates):
    """Its lines, and for each query the greatest count of the waits above it."""
    lines, least = [], []
    low = 0
    for _ in range(rng.randrange(0, 40)):
        if rng.random() < 0.2:
            count = min(updates, rng.choice([low, rng.randint(0, updates), low + rng.randrange(3)]))
            lines.append(f"wait {count}")
            low = max(low, count)
        else:
            lines.append(f"get {rng.choice(keys)}" if kind == "table" else "all")
            least.append(low)
        if rng.random() < 0.05:
            lines.append(rng.choice(["", "# a comment"]))
    return lines, least


def update_file(rng, kind, keys, updates, files):
    """Its lines. A hold is put in where the waits above the queries that it asks for are met by then."""
    lines, made = [], 0
    make = table_update if kind == "table" else list_update
    while True:
        if rng.random() < 0.25:
            file = rng.randrange(len(files))
            met = sum(1 for low in files[file][1] if low <= made)
            lines.append(f"hold {file + 1} {rng.randint(max(0, met - 2), met)}")
        elif made == updates:
            return lines
        else:
            lines.append(make(rng, keys))
            made += 1


def replay(kind, lines):
    """The replies, the state after each number of updates, and the holds: (file, count, updates before it)."""
    replies, holds = [], []
    table, pending, committed = {}, [], ()
    states = [dict(table) if kind == "table" else committed]
    for line in lines:
        verb, *rest = line.split()
        numbers = [int(word) for word in rest]
        if verb == "hold":
            holds.append((numbers[0], numbers[1], len(replies)))
            continue
        if kind == "table":
            old = table.get(numbers[0]) if numbers else None
            if verb == "tidy":
                reply = "tidied"
            elif verb == "del":
                reply = "missing" if old is None else f"was {old}"
                table.pop(numbers[0], None)
            elif old is None and len(table) >= MOST_PAIRS:
                reply = "full"
            elif verb == "set" or old is None:
                reply = "fresh" if old is None else f"was {old}"
                table[numbers[0]] = numbers[1]
            else:
                reply = f"has {old}"
            states.append(dict(table))
        else:
            if verb == "add":
                reply = "full" if len(pending) >= MOST_MEMBERS else "added"
                if reply == "added":
                    pending.append(numbers[0])
            elif verb == "drop":
                reply = "dropped" if numbers[0] in pending else "missing"
                if reply == "dropped":
                    pending[pending.index(numbers[0])] = pending[-1]
                    pending.pop()
            else:
                reply, committed = "committed", tuple(pending)
            states.append(committed)
        replies.append(reply)
    return replies, states, holds


def answers_of(kind, state, line):
    if kind == "list":
        return "= " + " ".join(map(str, state)) if state else "empty"
    key = int(line.split()[1])
    return f"{key} = {state[key]}" if key in state else f"{key} absent"


def fault(kind, ups, files, report):
    """What is wrong with the report, or None: the answers of each file have places that don't fall, within its bounds."""
    replies, states, holds = replay(kind, ups)
    said = report.split("\n")
    want = [f"u {i + 1} {reply}" for i, reply in enumerate(replies)]
    if said[: len(want)] != want:
        return "a reply"
    at = len(want)
    for f, (lines, least) in enumerate(files, 1):
        queries = [line for line in lines if line.startswith(("get", "all"))]
        place = 0
        for i, (line, low) in enumerate(zip(queries, least), 1):
            high = min([m for file, n, m in holds if file == f and i <= n], default=len(replies))
            place = max(place, low)
            while place <= high and said[at] != f"q {f} {i} {answers_of(kind, states[place], line)}":
                place += 1
            if place > high:
                return f"answer {i} of file {f}"
            at += 1
    last = states[-1]
    want = [f"t {k} = {last[k]}" for k in sorted(last)] if kind == "table" else [f"t {v}" for v in last]
    return None if said[at:] == want + ["end", ""] else "the table"


def write(folder, name, lines):
    path = os.path.join(folder, name)
    with open(path, "w") as file:
        file.writelines(line + "\n" for line in lines)
    return path


def run_once(rng, kind, lookup, folder):
    """One run: what is wrong with it, or None."""
    updates = rng.choice([0, 1, 3, 10, 60, 300])
    keys = rng.sample(KEYS, rng.randint(1, len(KEYS))) if rng.random() < 0.8 else list(range(1, 200))
    files = [query_file(rng, kind, keys, updates) for _ in range(rng.randint(1, 6))]
    ups = update_file(rng, kind, keys, updates, files)
    paths = [write(folder, "u", ups)] + [write(folder, f"q{f}", lines) for f, (lines, _) in enumerate(files, 1)]
    words = [kind, "--workers", str(rng.randint(1, 16)), "--seed", str(rng.randrange(2**64))] + paths
    done = subprocess.run([lookup] + words, capture_output=True, text=True, timeout=120)
    if done.returncode != 0:
        return f"status {done.returncode}: {done.stderr.strip()}"
    wrong = fault(kind, ups, files, done.stdout)
    if kind == "table":
        report = os.path.join(folder, "report")
        with open(report, "w") as file:
            file.write(done.stdout)
        judged = subprocess.run([lookup, "judge", kind] + paths + [report], capture_output=True, text=True, timeout=120)
        if (judged.stdout == "legal\n") != (wrong is None):
            return f"the judge says {judged.stdout.strip()!r}, and here it is {wrong or 'legal'}"
    return wrong


def main():
    a = argparse.ArgumentParser(description=__doc__, formatter_class=argparse.RawDescriptionHelpFormatter)
    a.add_argument("--runs", type=int, default=10_000)
    a.add_argument("--seed", type=int, default=1)
    a.add_argument("--lookup", default=os.path.join(HERE, "..", "crates", "lookup", "out", "lookup"))
    a.add_argument("--kinds", default="table,list")
    a.add_argument("--keep", default=os.path.join(HERE, "out", "stress"))
    a = a.parse_args()
    kinds = a.kinds.split(",")
    began = time.time()
    with tempfile.TemporaryDirectory() as folder:
        for run in range(a.runs):
            rng = random.Random(f"{a.seed}.{run}")
            wrong = run_once(rng, kinds[run % len(kinds)], a.lookup, folder)
            if wrong:
                shutil.copytree(folder, a.keep, dirs_exist_ok=True)
                print(f"run {run} of seed {a.seed}: {wrong}; its files are in {a.keep}")
                sys.exit(1)
            for name in os.listdir(folder):
                os.remove(os.path.join(folder, name))
    print(f"{a.runs} runs, each report legal, in {time.time() - began:.0f} s")


if __name__ == "__main__":
    main()
