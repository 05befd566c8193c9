#!/usr/bin/env python3
"""Measures explain, coverage and lint of the built smsc on great inputs.

usage: tools/load_explain.py PATH/smsc

Prints the processor seconds of each load, and of one of half its size: coverage of 10,000 cases under routines of 100
statements, explain of one case under four routines of some 65 KB in all, as a deck's routines may have, and lint of a
deck of such routines, each also in the other forms. A load's times are the least of three.
"""
import os
import resource
import subprocess
import sys
import tempfile

KINDS = [("dataclass", "DATACLAS", "DC"), ("storclass", "STORCLAS", "SC"), ("mgmtclass", "MGMTCLAS", "MC"), ("storgroup", "STORGRP", "SG")]


def routine(kind, prefix, statements):
    """A routine of so many statements: a SELECT whose WHENs compare a qualifier."""
    arms = []
    for at in range((statements - 2) // 2):
        arms.append(f"  WHEN (&HLQ = 'Q{at % 997}' AND &LLQ = L{at % 89}*) SET &{kind} = '{prefix}{at % 9}'")
    return "\n".join([f"PROC {kind}", " SELECT", *arms, f"  OTHERWISE SET &{kind} = '{prefix}0'", " END", "END"])


def deck(statements):
    """A deck whose four routines have so many statements each."""
    lines = ["version = 1"]
    for at in range(9):
        lines += [f"[dataclass.DC{at}]", f"[storclass.SC{at}]", f"[mgmtclass.MC{at}]", f"[storgroup.SG{at}.volume.VOL00{at}]", "tracks = 1000"]
    lines.append("[routine]")
    for key, kind, prefix in KINDS:
        lines.append(f'{key} = """\n{routine(kind, prefix, statements)}"""')
    return "\n".join(lines) + "\n"


def cases(count):
    """A table of so many cases."""
    return "CASE,JOB,DSN\n" + "".join(f"C{at},JOB{at % 7},Q{at % 1500}.A.L{at % 100}\n" for at in range(count))


def seconds(words):
    """The processor seconds of a call, the least of three."""
    found = []
    for _ in range(3):
        before = resource.getrusage(resource.RUSAGE_CHILDREN)
        done = subprocess.run(words, stdout=subprocess.DEVNULL, stderr=subprocess.PIPE)
        after = resource.getrusage(resource.RUSAGE_CHILDREN)
        if done.returncode not in (0, 1) or done.stderr:
            sys.exit(f"{' '.join(words)}: status {done.returncode} {done.stderr.decode()}")
        found.append(after.ru_utime + after.ru_stime - before.ru_utime - before.ru_stime)
    return min(found)


def main():
    if len(sys.argv) != 2:
        sys.exit(__doc__)
    tool = os.path.abspath(sys.argv[1])
    with tempfile.TemporaryDirectory() as folder:
        def write(name, text):
            path = os.path.join(folder, name)
            with open(path, "w") as file:
                file.write(text)
            return path

        small, half, great = write("small", deck(100)), write("half", deck(900)), write("great", deck(1800))
        one, some, many = write("one", cases(1)), write("some", cases(5000)), write("many", cases(10000))
        loads = [
            ("coverage of 10,000 cases", ["coverage", small, many], ["coverage", small, some]),
            ("explain of one case", ["explain", great, one], ["explain", half, one]),
            ("lint", ["lint", great], ["lint", half]),
        ]
        print(f"the great deck has {os.path.getsize(great):,} bytes")
        for name, words, halved in loads:
            for form in ["text", "csv", "json"]:
                more = ["--format", form]
                took, before = seconds([tool, *words, *more]), seconds([tool, *halved, *more])
                print(f"{name}, {form}: {took:.3f} s, half of it {before:.3f} s")


if __name__ == "__main__":
    main()
