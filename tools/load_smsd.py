#!/usr/bin/env python3
"""Measures the desk over a store: its lists, the space that they take, and how many requests it answers a second.
usage: tools/load_smsd.py SMSD SMSCTL [PLAIN] [FOLDER]     FOLDER lies on the disk that is measured (default: here)
SMSD and SMSCTL are built programs, PLAIN a built tools/plain_http.rs (`-` for none). It tells
- of a store of 20,000 data sets the time of each list, and how much of it is a processor's (five runs, the least);
- over that store the requests a second of one connection, one after the other and 16 in one write, and the same with 1,000
  further connections that ask nothing, in rounds that take turns;
- the seconds of a script of 5,000 ALLOC lines by `smsd run` and by `smsctl run --db` over the same disk.
Its own store, `load_smsd.db`, is made anew. Nothing else should work on the machine meanwhile."""
import os
import resource
import socket
import subprocess
import sys
import time

SETS, ASKED, IDLE, LINES, ROUNDS, PORT = 20_000, 3_000, 1_000, 5_000, 5, 18_080

DECK = """version = 1
[storclass.SC1]
[storgroup.SG1.volume.VOL001]
tracks = 900000
[routine]
storclass = "PROC STORCLAS SET &STORCLAS = 'SC1' END"
storgroup = "PROC STORGRP SET &STORGRP = 'SG1' END"
"""


def script(job, count):
    lines = [f"{job} {number} ALLOC {job}.D{number} SPACE=(TRK,1)" for number in range(1, count + 1)]
    return ("SMSADMIN 1 ACTIVATE\n" + DECK + "./END\n" + "\n".join(lines) + "\n").encode()


def used():
    times = resource.getrusage(resource.RUSAGE_CHILDREN)
    return times.ru_utime + times.ru_stime


def timed(words, text=b""):
    """The seconds of a program, and those of a processor."""
    begin, before = time.monotonic(), used()
    subprocess.run(words, input=text, stdout=subprocess.DEVNULL, stderr=subprocess.DEVNULL, check=True)
    return time.monotonic() - begin, used() - before


def gone(path):
    for tail in ("", "-wal", "-shm"):
        if os.path.exists(path + tail):
            os.remove(path + tail)
    return path


def lists(smsd, store):
    wall, processor = timed([smsd, "run", "--store", store], script("JOB0", SETS))
    print(f"a store of {SETS} data sets made: {wall:.2f} s, {processor:.2f} of a processor; {os.path.getsize(store)} bytes")
    for what in ("sets", "extents", "volumes", "groups", "classes"):
        wall, processor = min(timed([smsd, "list", what, "--store", store]) for _ in range(ROUNDS))
        print(f"list {what}: {wall:.3f} s, {processor:.3f} of a processor")


def connected(port):
    for _ in range(600):
        try:
            link = socket.create_connection(("127.0.0.1", port), timeout=60)
            link.setsockopt(socket.IPPROTO_TCP, socket.TCP_NODELAY, 1)
            return link
        except OSError:
            time.sleep(0.1)
    sys.exit("nobody listens")


def message(port, path, body):
    return b"POST %s HTTP/1.1\r\nHost: 127.0.0.1:%d\r\nContent-Length: %d\r\n\r\n%s" % (path, port, len(body), body)


def answers(link, rest, number):
    """Reads so many answers, and returns how many were granted and what is behind them."""
    granted = 0
    while number:
        head, found, behind = rest.partition(b"\r\n\r\n")
        size = int(head.split(b"Content-Length: ")[1].split(b"\r\n")[0]) if found else 0
        if found and len(behind) >= size:
            granted += b'"A00"' in behind[:size]
            rest, number = behind[size:], number - 1
            continue
        piece = link.recv(65_536)
        if not piece:
            sys.exit("the connection ended")
        rest += piece
    return granted, rest


def rate(port, job, at_once):
    """The requests a second of one connection, so many in one write."""
    asks = [message(port, b"/job/%s/%d/alloc/%s.D%d" % (job, i + 1, job, i), b'{"SPACE":"(TRK,1)"}') for i in range(ASKED)]
    with connected(port) as link:
        granted, rest, begin = 0, b"", time.monotonic()
        for at in range(0, ASKED, at_once):
            some = asks[at:at + at_once]
            link.sendall(b"".join(some))
            more, rest = answers(link, rest, len(some))
            granted += more
        taken = time.monotonic() - begin
    return ASKED / taken if granted == ASKED else sys.exit(f"{granted} of {ASKED} were granted")


def served(words, port, deck):
    """The rates of a served desk, alone and beside connections that ask nothing; each is the middle of several rounds."""
    program = subprocess.Popen(words, stdout=subprocess.DEVNULL, stderr=subprocess.DEVNULL)
    try:
        if deck:
            with connected(port) as link:
                link.sendall(message(port, b"/admin/1/activate", DECK.encode()))
                answers(link, b"", 1)
        found = {}
        for turn in range(ROUNDS):
            for idle in (0, IDLE) if not deck else (0,):
                links = [connected(port) for _ in range(idle)]
                for at_once in (1, 16):
                    job = b"R%d%c%d" % (turn, b"NI"[bool(idle)], at_once)
                    found.setdefault((idle, at_once), []).append(rate(port, job, at_once))
                for link in links:
                    link.close()
        for (idle, at_once), rates in found.items():
            rates.sort()
            print(f"  {at_once} in one write, {idle} idle: {rates[0]:.0f}, {rates[len(rates) // 2]:.0f}, {rates[-1]:.0f} a second")
    finally:
        program.kill()
        program.wait()


def main():
    words = [os.path.abspath(word) if word != "-" else None for word in sys.argv[1:4]]
    if len(words) < 2:
        sys.exit(__doc__)
    smsd, smsctl, plain = (words + [None])[:3]
    folder = sys.argv[4] if len(sys.argv) > 4 else "."
    store = gone(os.path.join(folder, "load_smsd.db"))
    lists(smsd, store)
    print("the desk over that store, served (the least, the middle and the greatest):")
    served([smsd, "serve", "--port", str(PORT), "--connections", str(IDLE + 10), "--idle", "3600", "--store", store], PORT, False)
    print("the desk in memory, by one worker:")
    served([smsctl, "serve", str(PORT + 1), "1000"], PORT + 1, True)
    if plain:
        print("the plain program:")
        served([plain, str(PORT + 2), "1000"], PORT + 2, True)
    for _ in range(ROUNDS):
        by_smsd = timed([smsd, "run", "--store", gone(store)], script("JOB0", LINES))
        by_smsctl = timed([smsctl, "run", "--db", gone(store)], script("JOB0", LINES))
        print(f"{LINES} ALLOC lines: smsd run {by_smsd[0]:.2f} s ({by_smsd[1]:.2f} of a processor), "
              f"smsctl run --db {by_smsctl[0]:.2f} s ({by_smsctl[1]:.2f})")
    gone(store)


main()
