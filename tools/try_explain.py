#!/usr/bin/env python3
"""Tries explain, coverage and lint of the built smsc on random decks, against simulate and against each other.

usage: tools/try_explain.py PATH/smsc [DECKS [SEED]]      500 decks and seed 1 where they aren't given

Of each deck, with 20 allocations: the outcomes that explain tells are those of simulate; each count of coverage is the
number of explain's lines at that place, and the totals are those of its own lines; what lint says is never taken or
never run isn't by 1,000 further allocations, and the deck without it gives them the same outcomes. It ends with status
1 where something differs.
"""
import random
import re
import subprocess
import sys
from collections import Counter

KINDS = {"DATACLAS": "DC", "STORCLAS": "SC", "MGMTCLAS": "MC", "STORGRP": "SG"}
KEYS = {"DATACLAS": "dataclass", "STORCLAS": "storclass", "MGMTCLAS": "mgmtclass", "STORGRP": "storgroup"}
QUALIFIERS = ["PAY", "TEST", "PAYA", "WORK", "DEV", "JCL", "LIST", "TEMP", "X1"]
MASKS = ["PAY", "PAY*", "PAY%", "T*", "TEST", "*", "%%%", "W*K", "DEV", "X%"]
LONG_MASKS = ["PAY.**", "PAY.*", "**.JCL", "*.TEST.**", "**", "PAY*.**", "DEV.*.JCL", "WORK.%%%.**"]
JOBS = ["JOB1", "PAYJOB", "OPS"]


class Routine:
    """A random routine as a tree, which can be written without one of its parts."""

    def __init__(self, draw, kind):
        self.draw, self.kind = draw, kind
        self.lists = [(f"F{at}", self.entries()) for at in range(draw.randint(0, 2))]
        self.long_lists = [(f"L{at}", self.entries(LONG_MASKS)) for at in range(draw.randint(0, 1))]
        self.body = [self.statement(3) for _ in range(draw.randint(1, 4))]

    def entries(self, masks=MASKS):
        return [self.item(masks) for _ in range(self.draw.randint(1, 5))]

    def item(self, masks=MASKS):
        mask = self.draw.choice(masks)
        return f"'{mask}'" if self.draw.random() < 0.3 and "*" not in mask and "%" not in mask else mask

    def comparison(self):
        draw = self.draw
        roll = draw.random()
        if roll < 0.15:
            return f"&SIZE {draw.choice(['>', '<', '=', 'GE', 'LE'])} {draw.choice([1, 50, 600])}KB"
        if roll < 0.3:
            return f"&DSN {draw.choice(['=', 'NE'])} {draw.choice(LONG_MASKS + ['&' + name for name, _ in self.long_lists])}"
        if roll < 0.4:
            return f"&JOB {draw.choice(['=', 'NE'])} '{draw.choice(JOBS)}'"
        right = draw.choice([self.item()] * 3 + ["&" + name for name, _ in self.lists])
        return f"&{draw.choice(['HLQ', 'LLQ', 'DSN(2)'])} {draw.choice(['=', '=', '=', 'NE'])} {right}"

    def condition(self, depth=2):
        if depth == 0 or self.draw.random() < 0.6:
            return self.comparison()
        word = self.draw.choice(["AND", "OR"])
        return f"({self.condition(depth - 1)}) {word} ({self.condition(depth - 1)})"

    def statement(self, depth):
        roll = self.draw.random()
        if depth == 0 or roll < 0.35:
            return self.leaf()
        if roll < 0.6:
            return ("IF", self.condition(), self.block(depth - 1), self.block(depth - 1) if self.draw.random() < 0.5 else None)
        if roll < 0.85:
            whens = [(self.condition(), self.block(depth - 1)) for _ in range(self.draw.randint(1, 4))]
            return ("SELECT", None, whens, self.block(depth - 1) if self.draw.random() < 0.5 else None)
        name = self.draw.choice(["HLQ", "LLQ"])
        whens = [(" , ".join(self.entries()), self.block(depth - 1)) for _ in range(self.draw.randint(1, 4))]
        return ("SELECT", name, whens, self.block(depth - 1) if self.draw.random() < 0.5 else None)

    def block(self, depth):
        return ("DO", [self.statement(depth) for _ in range(self.draw.randint(1, 3))])

    def leaf(self):
        roll = self.draw.random()
        if roll < 0.15:
            return ("EXIT", self.draw.choice(["", " CODE(0)", " CODE(8)"]))
        if roll < 0.3:
            return ("WRITE", self.draw.choice(["'SEEN ' &DSN", "&HLQ", "'X'"]))
        return ("SET", f"&{self.kind} = '{KINDS[self.kind]}{self.draw.randint(1, 3)}'")

    def text(self, without=None):
        """The text, and the part that stands at each place, for those that lint tells."""
        lines, places = [f"PROC {self.kind}"], {}
        for name, entries in self.lists + self.long_lists:
            lines.append(f"  FILTLIST {name} INCLUDE({','.join(entries)})")
        for part in self.body:
            write(part, 2, lines, places, without)
        lines.append("END")
        return "\n".join(lines) + "\n", places


def write(part, deep, lines, places, without):
    """Puts the lines of a statement behind others; a statement that goes is written as an empty DO."""
    at = " " * deep
    if without is part:
        lines.append(f"{at}DO END")
        return
    places[f"{len(lines) + 1}:{deep + 1}"] = part
    if part[0] == "DO":
        lines.append(f"{at}DO")
        for inner in part[1]:
            write(inner, deep + 2, lines, places, without)
        lines.append(f"{at}END")
    elif part[0] == "IF":
        lines.append(f"{at}IF {part[1]} THEN")
        write(part[2], deep + 2, lines, places, without)
        if part[3]:
            lines.append(f"{at}ELSE")
            write(part[3], deep + 2, lines, places, without)
    elif part[0] == "SELECT":
        lines.append(f"{at}SELECT" + (f" (&{part[1]})" if part[1] else ""))
        for when in part[2]:
            if when is not without:
                places[f"{len(lines) + 1}:{deep + 3}"] = when
                lines.append(f"{at}  WHEN ({when[0]})")
                write(when[1], deep + 4, lines, places, without)
        if part[3]:
            lines.append(f"{at}  OTHERWISE")
            write(part[3], deep + 4, lines, places, without)
        lines.append(f"{at}END")
    else:
        lines.append(f"{at}{part[0]}{'' if part[0] == 'EXIT' else ' '}{part[1]}")


def deck_of(routines, without=None):
    lines = ["version = 1"]
    for at in (1, 2, 3):
        lines += [f"[dataclass.DC{at}]", f"[storclass.SC{at}]", f"[mgmtclass.MC{at}]"]
        lines += [f"[storgroup.SG{at}.volume.VOL00{at}]", "tracks = 1000"]
    lines.append("[routine]")
    for routine in routines:
        lines.append(f"{KEYS[routine.kind]} = '''\n{routine.text(without)[0]}'''")
    return "\n".join(lines) + "\n"


def allocations(draw, count):
    lines = []
    for number in range(1, count + 1):
        name = ".".join(draw.choice(QUALIFIERS) for _ in range(draw.randint(1, 4)))
        lines.append(f"{draw.choice(JOBS)} {number} ALLOC {name} SPACE=(TRK,{draw.choice([1, 2, 10])})")
    return "\n".join(lines) + "\n"


class Trial:
    def __init__(self, program):
        self.program, self.differing, self.told = program, 0, Counter()

    def run(self, words, text):
        made = subprocess.run([self.program, *words], input=text.encode(), capture_output=True, timeout=120)
        if made.returncode != 0:
            sys.exit(f"smsc {' '.join(words)}: status {made.returncode}: {made.stderr.decode()}\n{text}")
        return made.stdout.decode()

    def check(self, holds, what, text):
        if not holds:
            self.differing += 1
            print(f"differs: {what}\n{text}", flush=True)

    def deck(self, seed):
        draw = random.Random(seed)
        routines = [Routine(draw, kind) for kind in KINDS if kind in ("STORCLAS", "STORGRP") or draw.random() < 0.6]
        deck = deck_of(routines)
        script = f"SMSADMIN 1 ACTIVATE\n{deck}./END\n"
        cases = script + allocations(draw, 20)
        explained = self.run(["explain"], cases)
        self.outcomes(explained, self.run(["simulate"], cases), cases, seed)
        self.counts(explained, self.run(["coverage"], cases), cases, seed)
        self.findings(routines, deck, self.run(["lint"], deck), allocations(draw, 1000), seed)

    def outcomes(self, explained, simulated, text, seed):
        told = [line for line in explained.splitlines() if re.match(r"[0-9]+ \S+ [0-9]+ (?!ALLOC )|  WRITE ", line)]
        self.check(told == simulated.splitlines(), f"deck {seed}: outcomes of explain", text)

    def counts(self, explained, covered, text, seed):
        counted, kind = Counter(), None
        for line in explained.splitlines():
            words = line.split()
            if words[0] in KINDS and words[1] in ("BEGIN", "END", "EXIT"):
                kind = words[0]
            elif re.match(r"  [0-9]+:[0-9]+ ", line):
                counted[(kind, words[0], event_of(words))] += event_of(words) != "SETS"
        kind, sums = None, Counter()
        for line in covered.splitlines():
            words = line.split()
            if len(words) == 1:
                kind = words[0]
                sums.clear()
            elif words[0] == kind:
                self.totals(words, sums, f"deck {seed}: totals of {kind}", text)
            elif "NEVER" not in words:
                self.line(kind, words, counted, sums, f"deck {seed}: {kind} {line.strip()}", text)
        rest = {key: count for key, count in counted.items() if count}
        self.check(not rest, f"deck {seed}: coverage leaves out {rest}", text)

    def line(self, kind, words, counted, sums, what, text):
        if words[-2] in ("RAN", "TAKEN"):
            wanted, told = counted.pop((kind, words[0], words[-2]), 0), int(words[-1])
            sums[words[-2]] += told > 0
            sums[words[-2] + " ALL"] += 1
            return self.check(wanted == told, f"{what}, wanted {wanted}", text)
        wanted = [counted.pop((kind, words[0], word), 0) for word in ("TRUE", "FALSE")]
        told = [int(words[-3]), int(words[-1])]
        sums["BOTH"] += all(told)
        sums["BOTH ALL"] += 1
        self.check(wanted == told, f"{what}, wanted {wanted}", text)

    def totals(self, words, sums, what, text):
        told = [int(word) for word in words if word.isdigit()]
        wanted = [sums[word] for word in ("RAN", "RAN ALL", "TAKEN", "TAKEN ALL", "BOTH", "BOTH ALL")]
        self.check(told == wanted, f"{what}, wanted {wanted}", text)

    def findings(self, routines, deck, linted, further, seed):
        script = f"SMSADMIN 1 ACTIVATE\n{deck}./END\n{further}"
        covered, outcomes = None, None
        for line in linted.splitlines():
            found = re.match(r"(\S+) ([0-9]+:[0-9]+) (\S+) NEVER (TAKEN|RUN)", line)
            if not found:
                self.told["other"] += line.count(" ") > 1
                continue
            kind, place, _, word = found.groups()
            self.told[word] += 1
            covered = covered or lines_of(self.run(["coverage"], script))
            word = "TAKEN" if word == "TAKEN" else "RAN"
            self.check(covered.get((kind, place, word)) == "0", f"deck {seed}: {line}", script)
            outcomes = outcomes or bare(self.run(["simulate"], script))
            routine = next(routine for routine in routines if routine.kind == kind)
            part = routine.text()[1].get(place)
            if part is None or word == "TAKEN" and sole(routine.body, part):
                continue
            self.told["without"] += 1
            less = f"SMSADMIN 1 ACTIVATE\n{deck_of(routines, part)}./END\n{further}"
            self.check(bare(self.run(["simulate"], less)) == outcomes, f"deck {seed}: without {line}", script)


def event_of(words):
    if words[-1] == "TAKEN":
        return "TAKEN"
    if "TRUE" in words or "FALSE" in words:
        return "TRUE" if "TRUE" in words else "FALSE"
    return "RAN" if len(words) == 2 else "SETS"


def lines_of(covered):
    """The numbers of coverage by kind, place and word."""
    kind, found = None, {}
    for line in covered.splitlines():
        words = line.split()
        if len(words) == 1:
            kind = words[0]
        elif words[-2] in ("RAN", "TAKEN"):
            found[(kind, words[0], words[-2])] = words[-1]
    return found


def bare(simulated):
    """The outcomes without the lines of the script, which move where the deck is another."""
    return [re.sub(r"^[0-9]+ ", "", line) for line in simulated.splitlines()]


def sole(parts, when):
    """It is the only WHEN of its SELECT, which can't go without it."""
    for part in parts:
        inner = []
        if part[0] == "SELECT":
            if len(part[2]) == 1 and part[2][0] is when:
                return True
            inner = [block for _, block in part[2]] + [part[3]]
        elif part[0] == "IF":
            inner = [part[2], part[3]]
        elif part[0] == "DO":
            inner = part[1]
        if sole([block for block in inner if block], when):
            return True
    return False


def main(words):
    if not words or words[0] in ("-h", "--help"):
        sys.exit(__doc__)
    trial = Trial(words[0])
    first = int(words[2]) if len(words) > 2 else 1
    for seed in range(first, first + int(words[1] if len(words) > 1 else 500)):
        trial.deck(seed)
    print(f"{trial.differing} differ; findings: {dict(trial.told)}")
    return 1 if trial.differing else 0


if __name__ == "__main__":
    sys.exit(main(sys.argv[1:]))
