"""The job of `lookup table` as a user of Python might write it: python3 peer.py UPDATES QUERY..

All updates come before all queries, and `wait` lines ask for nothing.
"""
import sys


def main(names):
    table, report, made = {}, [], 0
    for line in open(names[0]):
        words = line.split()
        if not words or line[0] == "#":
            continue
        verb = words[0]
        made += 1
        if verb == "tidy":
            report.append(f"u {made} tidied")
            continue
        key = int(words[1])
        old = table.get(key)
        if verb == "del":
            table.pop(key, None)
            report.append(f"u {made} missing" if old is None else f"u {made} was {old}")
        elif verb == "put" and old is not None:
            report.append(f"u {made} has {old}")
        elif verb in ("set", "put"):
            table[key] = int(words[2])
            report.append(f"u {made} fresh" if old is None else f"u {made} was {old}")
        else:
            sys.exit(4)
    for file, name in enumerate(names[1:], 1):
        asked = 0
        for line in open(name):
            words = line.split()
            if not words or line[0] == "#" or words[0] == "wait":
                continue
            asked += 1
            key = int(words[1])
            value = table.get(key)
            report.append(f"q {file} {asked} {key} absent" if value is None else f"q {file} {asked} {key} = {value}")
    report += [f"t {key} = {table[key]}" for key in sorted(table)]
    report.append("end\n")
    sys.stdout.write("\n".join(report))


main(sys.argv[1:])
