#!/usr/bin/env python3
"""Writes loads of routines into a folder, the same at each call.
usage: tools/load_routines.py FOLDER
  routine   a storage class routine of 59,884 bytes with 40 filter lists            smsc translate STORCLAS < routine
  deck      16 storage groups, 1,024 volumes, and two such routines                 smsc validate < deck
  sim       that deck activated, and 3,000 ALLOCs of every kind of name             smsc simulate < sim
  masks     one ALLOC whose routine asks 2,400 times for one list of 255 masks      smsctl run < masks
  lists-V   four ALLOCs under four routines of 65 KB that only ask for such lists by the variable V: DSN, HLQ, JOB or
            LLQ                                                                     smsctl run < lists-DSN"""
import os, random, sys

MASK = '**.' + '%.' * 20 + 'B'


def main():
    if len(sys.argv) != 2: sys.exit(__doc__)
    folder = sys.argv[1]
    os.makedirs(folder, exist_ok=True)
    def put(name, text): open(os.path.join(folder, name), 'w').write(text)
    routine = selecting_routine()
    deck = deck_of(routine)
    put('routine', routine)
    put('deck', deck + '\n')
    put('sim', '\n'.join(['SMSADMIN 1 ACTIVATE', deck, './END'] + allocations()) + '\n')
    put('masks', asking_script(['storclass'], 'DSN', MASK, 1))
    for variable in ('DSN', 'HLQ', 'JOB', 'LLQ'):
        mask = MASK if variable == 'DSN' else '%' * 7 + 'B'
        put('lists-' + variable, asking_script(['dataclass', 'storclass', 'mgmtclass', 'storgroup'], variable, mask, 4))


def selecting_routine():
    """SELECTs by filter lists and sizes, up to nearly 60,000 bytes."""
    random.seed(3)
    out = ['PROC STORCLAS']
    out += [f"FILTLIST F{i} INCLUDE('A{i}.**','B{i}.*.C','D{i}%%.E*') EXCLUDE('A{i}.X.**')" for i in range(40)]
    rule = 0
    while sum(map(len, out)) + len(out) < 59800:
        k = random.randrange(40)
        out.append(f'/* RULE {rule} */ SELECT')
        for j in range(4):
            size, name = random.randrange(1, 900), random.choice(['SC1', 'SC2', 'SC3'])
            out.append(f"  WHEN (&DSN = &F{(k + j) % 40} AND &SIZE > {size}MB) DO SET &STORCLAS = '{name}' EXIT CODE(0) END")
        out.append("  OTHERWISE DO IF &JOB = 'PAY*' OR &UNIT = '3390' THEN WRITE 'RULE'  &DSN END")
        out.append('END')
        rule += 1
    return '\n'.join(out + ['END'])


def deck_of(routine):
    """That routine for the storage class and for the storage groups."""
    out = ['version = 1'] + [f'[storclass.SC{i}]' for i in (1, 2, 3)]
    for g in range(16):
        out.append(f'[storgroup.SG{g}]\nhigh = 85')
        out += [f'[storgroup.SG{g}.volume.V{g:02}{v:02}]\ntracks = 50085' for v in range(64)]
    groups = routine.replace('PROC STORCLAS', 'PROC STORGRP').replace('&STORCLAS', '&STORGRP')
    for i in (1, 2, 3): groups = groups.replace(f"'SC{i}'", f"'SG{i}'")
    return '\n'.join(out + ['[routine]', f"storclass = '''\n{routine}'''", f"storgroup = '''\n{groups}'''"])


def allocations():
    """Names that begin as the filter lists' do, and others."""
    random.seed(4)
    lines = []
    for i in range(1, 3001):
        k = random.randrange(40)
        name = random.choice([f'A{k}.B.D{i}', f'B{k}.X{i}.C', f'D{k}AB.E{i}', f'Q{k}.D{i}'])
        lines.append(f'JOB{i % 10} {i} ALLOC {name} SPACE=(TRK,({random.randrange(1, 900)},1))')
    return lines


def asking_script(kinds, variable, mask, count):
    """A deck with routines of these kinds that ask for one list as often as they may, and so many ALLOCs."""
    names = {'dataclass': 'DATACLAS', 'storclass': 'STORCLAS', 'mgmtclass': 'MGMTCLAS', 'storgroup': 'STORGRP'}
    out = ['SMSADMIN 1 ACTIVATE', 'version = 1', '[storclass.SC1]', '[storgroup.SG1.volume.VOL001]', 'tracks = 1000', '[routine]']
    for kind in names:
        name = names[kind]
        last = {'storclass': "SET &STORCLAS='SC1' ", 'storgroup': "SET &STORGRP='SG1' "}.get(kind, '')
        if kind in kinds:
            head = f'PROC {name}\nFILTLIST F INCLUDE(' + ','.join([mask] * 255) + f') EXCLUDE({mask})\n'
            step = f'IF &{variable}=&F THEN EXIT\n'
            out.append(f"{kind} = '''\n" + head + step * ((65000 - 80 - len(head)) // len(step)) + last + "END'''")
        elif last:
            out.append(f'{kind} = "PROC {name} {last}END"')
    out.append('./END')
    out += [f'J {i} ALLOC ' + 'A.' * 20 + f'A{i} SPACE=(TRK,1)' for i in range(1, count + 1)]
    return '\n'.join(out) + '\n'


main()
