#!/usr/bin/env python3
"""Times a run that does nothing but go on from a file of records.
usage: tools/load_reopen.py SMSCTL SETS REPLIES [FOLDER]     FOLDER lies on the disk that is measured (default: here)
A first run makes a file with SETS data sets of one track and REPLIES kept replies (at most 50,000, as a journal has no more
entries); then the program answers an empty script over it, five times. It says the seconds of each, and how many of them are
a processor's."""
import os
import resource
import subprocess
import sys
import time

DECK = """SMSADMIN 1 ACTIVATE
version = 1
[storclass.SC1]
[storgroup.SG1.volume.VOL001]
tracks = 900000
[routine]
storclass = "PROC STORCLAS SET &STORCLAS = 'SC1' END"
storgroup = "PROC STORGRP SET &STORGRP = 'SG1' END"
./END
"""


def script(sets, replies):
    """An activation, then an ALLOC for each data set, then as many USED as are wanted beside them."""
    lines = [f"JOB1 {number} ALLOC A.D{number} SPACE=(TRK,1)" for number in range(1, sets + 1)]
    lines += [f"JOB1 {number} USED A.D{number - sets * ((number - 1) // sets)} 1" for number in range(sets + 1, replies)]
    return (DECK + "\n".join(lines) + "\n").encode()


def used():
    times = resource.getrusage(resource.RUSAGE_CHILDREN)
    return times.ru_utime + times.ru_stime


def timed(program, path, text):
    begin, before = time.time(), used()
    ended = subprocess.run([program, "run", "--db", path], input=text, stdout=subprocess.PIPE, check=True)
    return time.time() - begin, used() - before, ended.stdout


def main():
    program, sets, replies = os.path.abspath(sys.argv[1]), int(sys.argv[2]), int(sys.argv[3])
    path = os.path.join(sys.argv[4] if len(sys.argv) > 4 else ".", "reopen.db")
    for tail in ("", "-wal", "-shm"):
        if os.path.exists(path + tail):
            os.remove(path + tail)
    wall, processor, text = timed(program, path, script(sets, replies))
    print(f"made: {wall:.2f} s, {processor:.2f} of a processor; {text.splitlines()[-1].decode()}")
    for _ in range(5):
        wall, processor, text = timed(program, path, b"")
        assert text == b"END 0 0\n", text
        print(f"reopened: {wall:.2f} s, {processor:.2f} of a processor")


main()
