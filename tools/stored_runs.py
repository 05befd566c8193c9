#!/usr/bin/env python3
"""Runs the built smsctl as an administrator does, in a folder of its own, and says where it doesn't write or leave what is stored here.

usage: tools/stored_runs.py PATH/smsctl

- `run --manage DAY`: the text of the run and, behind it, that of the day; no file is made.
- `run --db FILE`: the file that is named holds the records, and no other is made; a second run goes on from it, another file
  begins anew, one may lie in another folder, and one that can't be made, or is no database, is refused.

Standard input is a file, as from a shell. The last line says how many runs were as stored.
"""
import contextlib
import os
import sqlite3
import subprocess
import sys
import tempfile

DECK = """SMSADMIN 1 ACTIVATE
version = 1
[storclass.SC1]
[mgmtclass.MCT]
expire_after = 2
release = "YES"
[storgroup.SG1.volume.VOL001]
tracks = 100
[routine]
storclass = "PROC STORCLAS SET &STORCLAS = 'SC1' END"
mgmtclass = "PROC MGMTCLAS SET &MGMTCLAS = 'MCT' END"
storgroup = "PROC STORGRP SET &STORGRP = 'SG1' END"
./END
"""
FIRST = DECK + """JOB1 1 ALLOC A.A SPACE=(TRK,10) DAY=1
JOB1 2 ALLOC A.B SPACE=(TRK,10) DAY=3
JOB1 3 ALLOC A.C SPACE=(TRK,10) DAY=1 RETPD=5
JOB1 4 USED A.B 4
"""
FIRST_TEXT = """1 1 1 SMSADMIN 1 A04 ACTIVATED 1
14 2 2 JOB1 1 A00 GRANTED
  CLASS - SC1 MCT SG1
  EXTENT VOL001 0 10
15 3 3 JOB1 2 A00 GRANTED
  CLASS - SC1 MCT SG1
  EXTENT VOL001 10 10
16 4 4 JOB1 3 A00 GRANTED
  CLASS - SC1 MCT SG1
  EXTENT VOL001 20 10
17 5 5 JOB1 4 A08 NOTED
END 5 5
"""
DAY_3 = """MANAGE 1 A.A A03 DELETED 10
MANAGE 2 A.B A09 RELEASED 6
MANAGE 3 A.C A09 RELEASED 9
MANAGED 1 2
"""
DAY_0 = """MANAGE 1 A.A A09 RELEASED 9
MANAGE 2 A.B A09 RELEASED 6
MANAGE 3 A.C A09 RELEASED 9
MANAGED 0 3
"""
SECOND = "JOB1 4 USED A.B 4\nJOB1 5 RELEASE A.B\nJOB1 6 DELETE A.A\n"
SECOND_TEXT = "1 6 5 JOB1 4 A08 NOTED\n2 7 7 JOB1 5 A09 RELEASED 6\n3 8 8 JOB1 6 A03 DELETED 10\nEND 3 3\n"
ALONE = "JOB1 1 DELETE A.A\n"
ALONE_TEXT = "1 1 1 JOB1 1 R19 NOT FOUND\nEND 1 1\n"
TABLES = ("sets", "replies", "decks", "statuses", "floors")

# The words, the input, the status and the output of each run, and how many rows each file has behind it, by table.
FILES = {"desk.db": (3, 5, 1, 2, 0)}
MORE = {"desk.db": (2, 7, 1, 2, 0)}
OTHER = {**MORE, "other.db": (0, 1, 0, 0, 0)}
INNER = {**OTHER, "inner/desk.db": (3, 5, 1, 2, 0)}
RUNS = [
    ("run --manage 3", FIRST, 0, FIRST_TEXT + DAY_3, {}),
    ("run --manage 0", FIRST, 0, FIRST_TEXT + DAY_0, {}),
    ("run --manage 10000000", FIRST, 2, "", {}),
    ("run --db desk.db", FIRST, 0, FIRST_TEXT, FILES),
    ("run --db desk.db", SECOND, 0, SECOND_TEXT, MORE),
    ("run --db other.db", ALONE, 0, ALONE_TEXT, OTHER),
    ("run --db inner/desk.db", FIRST, 0, FIRST_TEXT, INNER),
    ("run --db missing/desk.db", FIRST, 9, "", INNER),
    ("run --db text", FIRST, 9, "", INNER),
    ("run --db", FIRST, 2, "", INNER),
    ("run", ALONE, 0, ALONE_TEXT, INNER),
]


# The files below the folder but `input` and `text`; what stands behind one of a database goes with it.
def found(folder):
    names = set()
    for place, _, files in os.walk(folder):
        for name in files:
            path = os.path.relpath(os.path.join(place, name), folder)
            names.add(path.removesuffix("-wal").removesuffix("-shm"))
    return names - {"input", "text"}


def rows(path):
    with contextlib.closing(sqlite3.connect(path)) as connection:
        return tuple(connection.execute(f"SELECT count(*) FROM {table}").fetchone()[0] for table in TABLES)


# What differs from what is stored of a run.
def differences(smsctl, folder, run):
    words, script, status, text, files = run
    with open(os.path.join(folder, "input"), "w") as out:
        out.write(script)
    with open(os.path.join(folder, "input")) as source:
        ended = subprocess.run([smsctl, *words.split()], stdin=source, capture_output=True, text=True, cwd=folder)
    if ended.returncode != status:
        yield f"status {ended.returncode} in place of {status}: {ended.stderr.strip()}"
    if ended.stdout != text:
        yield f"the output:\n{ended.stdout}"
    said = [line for line in ended.stderr.splitlines() if not line.startswith("smsctl: refused: ")]
    if (status == 0) != (not said):
        yield f"on standard error: {ended.stderr.strip()}"
    if found(folder) != set(files):
        yield f"the files {sorted(found(folder))} in place of {sorted(files)}"
    for name in set(files) & found(folder):
        if rows(os.path.join(folder, name)) != files[name]:
            yield f"the rows of {name}: {rows(os.path.join(folder, name))} in place of {files[name]}"


def main():
    if len(sys.argv) != 2:
        sys.exit(__doc__)
    smsctl, good = os.path.abspath(sys.argv[1]), 0
    with tempfile.TemporaryDirectory() as folder:
        os.mkdir(os.path.join(folder, "inner"))
        with open(os.path.join(folder, "text"), "w") as out:
            out.write("this is no database\n" * 100)
        for run in RUNS:
            told = list(differences(smsctl, folder, run))
            good += not told
            for line in told:
                print(f"{run[0]}: {line}")
        with open(os.path.join(folder, "text")) as source:
            if source.read() != "this is no database\n" * 100:
                print("run --db text: the file is another")
                good -= 1
    print(f"{good} of {len(RUNS)} runs as stored")
    sys.exit(good != len(RUNS))


if __name__ == "__main__":
    main()
