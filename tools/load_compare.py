#!/usr/bin/env python3
"""Writes two decks, with routines of 100 statements, and a table of cases, by which a comparison's speed is measured.
usage: tools/load_compare.py COUNT    at most 10,000 cases, one in fifty of which differs"""
import sys

count = min(int(sys.argv[1]), 10_000)


def routine(kind, variable, value, other):
    """An assignment, 49 that stand under a test each, and the PROC: 100 statements."""
    tests = "".join(
        f"IF &HLQ = 'Q{i}' THEN SET &{variable} = '{other if i == 7 else value}'\n"
        for i in range(49)
    )
    return f"PROC {kind}\nSET &{variable} = '{value}'\n{tests}END\n"


def deck(other):
    """A deck whose routine for the storage class gives this class to the qualifier Q7."""
    storclas = routine("STORCLAS", "STORCLAS", "SC1", other)
    storgrp = routine("STORGRP", "STORGRP", "SG1", "SG1")
    head = "version = 1\n[storclass.SC1]\n[storclass.SC2]\n[storgroup.SG1.volume.VOL001]\ntracks = 100\n[routine]\n"
    return f'{head}storclass = """\n{storclas}"""\nstorgroup = """\n{storgrp}"""\n./END\n'


cases = "".join(
    f'C{i},JOB{i % 10},Q{i % 50}.D{i},"(TRK,({i % 400 + 1},5))"\n' for i in range(count)
)
sys.stdout.write(
    f"OLD\n{deck('SC1')}NEW\n{deck('SC2')}CASES\ncase,job,dsn,space\n{cases}"
)
