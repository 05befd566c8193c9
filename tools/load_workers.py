#!/usr/bin/env python3
"""Writes a script for runs by several workers: an activation, and behind a SYNC the allocations of many jobs.
usage: tools/load_workers.py heavy|light ALLOCATIONS > SCRIPT     heavy: a routine of 60 KB whose statements all run; light: the least routines
Then: time smsctl run --workers N < SCRIPT > ANSWERS, for N from 1 on."""
import sys

if len(sys.argv) != 3 or sys.argv[1] not in ('heavy', 'light'):
    sys.exit(__doc__)
JOBS = 24

def heavy():
    lines = ['PROC STORCLAS']
    number = 0
    while sum(len(line) + 1 for line in lines) < 59_900:
        lines.append(f" IF &DSN = 'X{number}.**' THEN SET &STORCLAS = 'SC2'")
        number += 1
    lines += [" SET &STORCLAS = 'SC1'", 'END']
    return '\n'.join(lines)

def quoted(text):
    return '"""\n' + text + '"""'

def deck(routine):
    return f'''version = 1
[storclass.SC1]
[storclass.SC2]
[storgroup.SG1.volume.VOL001]
device = "3390-9"
[routine]
storclass = {quoted(routine)}
storgroup = "PROC STORGRP SET &STORGRP = 'SG1' END"
./END'''

routine = heavy() if sys.argv[1] == 'heavy' else "PROC STORCLAS SET &STORCLAS = 'SC1' END"
print('SMSADMIN 1 ACTIVATE')
print(deck(routine))
print('SYNC')
for place in range(int(sys.argv[2])):
    print(f'JOB{place % JOBS} {place // JOBS + 1} ALLOC A.B{place} SPACE=(TRK,1)')
