#!/usr/bin/env python3
"""Runs the gate, or watches one that runs, and prints what each crate's proofs, tests and wrong bodies cost.

    tools/gate_times.py                    runs `rt ci` at the top of the repository, and ends with its status
    tools/gate_times.py NAME..             runs `rt ci NAME..`
    tools/gate_times.py --watch PID        watches the run of that process until it ends
    tools/gate_times.py --log FILE         adds the samples of each run to this file, and counts those of earlier runs too

It reads Linux's /proc twice a second: processor time of each check by crate and kind, and the memory of all checks together.
What a run took over from an earlier one costs nothing in it, so only a run from nothing gives the whole.
"""
import argparse
import json
import os
import re
import subprocess
import sys
import time

TICKS = os.sysconf("SC_CLK_TCK")
PAGE = os.sysconf("SC_PAGE_SIZE")
KINDS = ("own", "tests", "edits")


def read(path):
    """The file's bytes, or none where the process is gone."""
    try:
        with open(path, "rb") as file:
            return file.read()
    except OSError:
        return b""


def kind_of(words, folder):
    """What a check proves: the crate's own proof, its tests, or the wrong bodies with the proof that they begin with."""
    if "/rt-edit" in folder or any("/rt-edit" in word for word in words):
        return "edits"
    if any(word.endswith("_tests.o") for word in words):
        return "tests"
    return "own"


def checks_below(root):
    """The checks among the processes below one: number, crate, kind, processor seconds with those of its helpers, bytes of memory."""
    parents, times, memory, checks = {}, {}, {}, {}
    for name in os.listdir("/proc"):
        stat = read(f"/proc/{name}/stat") if name.isdigit() else b""
        if not stat:
            continue
        number = int(name)
        fields = stat[stat.rindex(b")") + 2:].split()
        parents[number] = int(fields[1])
        # its own time, and that of its helpers that have ended
        times[number] = sum(int(it) for it in fields[11:15]) / TICKS
        memory[number] = int(fields[21]) * PAGE
        words = read(f"/proc/{name}/cmdline").decode(errors="replace").split("\0")
        if "--crate-name" in words and os.path.basename(words[0]) == "rattle":
            try:
                folder = os.readlink(f"/proc/{name}/cwd")
            except OSError:
                continue
            checks[number] = (words[words.index("--crate-name") + 1], kind_of(words, folder))
    for number in set(times) - set(checks):
        check = next((it for it in checks if is_below(number, it, parents)), None)
        if check:
            times[check] += times[number]
            memory[check] += memory[number]
    return [(it, *checks[it], times[it], memory[it]) for it in checks if is_below(it, root, parents)]


def is_below(process, root, parents):
    """Whether a process is the root or one of those that it began."""
    while process > 1:
        if process == root:
            return True
        process = parents.get(process, 0)
    return False


def watch(root, is_running):
    """Samples the checks below a process while it runs: the seconds of each check, and the most memory of all together."""
    seen, most = {}, 0
    while is_running():
        memory = 0
        for number, crate, kind, seconds, used in checks_below(root):
            key = f"{root}:{number}:{crate}:{kind}"
            seen[key] = max(seen.get(key, 0), seconds)
            memory += used
        most = max(most, memory)
        time.sleep(0.5)
    return seen, most


def libraries(top):
    """The libraries of each crate that are the repository's own, from crates.txt."""
    crates = {}
    with open(f"{top}/crates.txt", encoding="utf-8") as file:
        for line in file:
            line = line.split("#")[0].strip()
            if line:
                name, _, below = line.partition(":")
                crates[name.split()[0]] = below.split()
    return {name: [it for it in below if it in crates] for name, below in crates.items()}


def longest_chain(cost, below):
    """The chain of crates, each on the next, whose proofs take longest one behind the other."""
    best = {}

    def of(name):
        if name not in best:
            under = max((of(it) for it in below[name]), default=(0, []), key=lambda it: it[0])
            best[name] = (under[0] + cost.get(name, 0), [*under[1], name])
        return best[name]

    return max((of(it) for it in below), default=(0, []), key=lambda it: it[0])


def table(seen, most, minutes, below):
    """The lines of what was measured."""
    cost = {name: dict.fromkeys(KINDS, 0) for name in below}
    for key, seconds in seen.items():
        _, _, crate, kind = key.split(":")
        cost.setdefault(crate, dict.fromkeys(KINDS, 0))[kind] += seconds / 60
    lines = ["| crate | own proofs | tests | wrong bodies | all |", "|---|---|---|---|---|"]
    for name, by in sorted(cost.items(), key=lambda it: -sum(it[1].values())):
        if sum(by.values()) >= 0.05:
            lines.append("| `%s` | %s | %.1f |" % (name, " | ".join("%.1f" % by[it] for it in KINDS), sum(by.values())))
    sums = [sum(by[it] for by in cost.values()) for it in KINDS]
    lines.append("| all | %s | %.1f |" % (" | ".join("%.1f" % it for it in sums), sum(sums)))
    proofs = {name: by["own"] + by["tests"] for name, by in cost.items()}
    length, chain = longest_chain(proofs, below)
    lines += ["", "Minutes of one processor; the run took %.0f minutes, and at most %.1f GB of memory." % (minutes, most / 2**30)]
    lines.append("The longest chain takes %.0f minutes: %s." % (length, ", ".join(f"`{it}`" for it in chain if proofs.get(it, 0) >= 0.05)))
    return lines


def main():
    parser = argparse.ArgumentParser(description=__doc__.split("\n")[0])
    parser.add_argument("--watch", type=int, metavar="PID")
    parser.add_argument("--log", metavar="FILE")
    parser.add_argument("names", nargs="*")
    given = parser.parse_args()
    top = os.path.dirname(os.path.dirname(os.path.abspath(__file__)))
    earlier = json.loads(read(given.log) or b"{}") if given.log else {}
    began, status = time.time(), 0
    if given.watch:
        seen, most = watch(given.watch, lambda: os.path.exists(f"/proc/{given.watch}"))
    else:
        run = subprocess.Popen(["rt", "ci", *given.names], cwd=top)
        seen, most = watch(run.pid, lambda: run.poll() is None)
        status = run.returncode
    minutes = (time.time() - began) / 60
    seen = {**earlier.get("seen", {}), **seen}
    most, minutes = max(most, earlier.get("most", 0)), minutes + earlier.get("minutes", 0)
    if given.log:
        with open(given.log, "w", encoding="utf-8") as file:
            json.dump({"seen": seen, "most": most, "minutes": minutes}, file)
    print("\n".join(table(seen, most, minutes, libraries(top))))
    sys.exit(status)


if __name__ == "__main__":
    main()
