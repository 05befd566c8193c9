#!/usr/bin/env python3
"""Tries the built smsd over real sockets and a real file, and says where it doesn't do what docs/manual/smsd.md promises.

usage: tools/try_smsd.py PATH/smsd [PORT [KILLS]]      PORT of 127.0.0.1 (18080), so many kills (20)

- Kills: four clients write while the program is killed and begun anew; each answer that a client got stands in the store,
  once, and each number that is asked again gets its kept reply.
- Connections: a thousand that say nothing, with one that is answered beside them; one client more than may be is told 503.
- A client that never reads, while another is answered; one whose message comes byte by byte; several messages in one write.
- A message of another site (Host, Origin, Sec-Fetch-Site) is told 403, and nothing is done.
- Days of space management on a store: what is due is told and then done, once, and the next day goes on behind it.
- The exit statuses of a deck that wouldn't be active, of an input and a store that aren't there, and of a port that is taken.
It works in a folder of its own and ends by itself; the exit status is 1 where something differs.
"""
import atexit
import json
import os
import resource
import signal
import socket
import subprocess
import sys
import tempfile
import threading
import time

DECK = """version = 1
[storclass.SC1]
[storgroup.SG1.volume.VOL001]
tracks = 900000
[routine]
storclass = "PROC STORCLAS SET &STORCLAS = 'SC1' END"
storgroup = "PROC STORGRP SET &STORGRP = 'SG1' END"
"""
SPACE = json.dumps({"SPACE": "(TRK,1)"})
differing = 0


def check(holds, what):
    global differing
    if not holds:
        differing += 1
        print(f"differs: {what}", flush=True)


def message(path, body="", head=""):
    return (
        f"POST {path} HTTP/1.1\r\nHost: 127.0.0.1:{port}\r\n{head}Content-Length: {len(body)}\r\n\r\n{body}"
    ).encode()


def connect():
    for _ in range(200):
        try:
            return socket.create_connection(("127.0.0.1", port), timeout=10)
        except OSError:
            time.sleep(0.02)
    sys.exit("smsd can't be reached")


def answer(link):
    """The status and the body of the next answer of a link; None where it ends."""
    data = b""
    while b"\r\n\r\n" not in data:
        more = link.recv(65536)
        if not more:
            return None
        data += more
    head, _, rest = data.partition(b"\r\n\r\n")
    lines = dict(line.split(": ", 1) for line in head.decode().split("\r\n")[1:])
    length = int(lines["Content-Length"])
    while len(rest) < length:
        more = link.recv(65536)
        if not more:
            return None
        rest += more
    return int(head.split()[1]), rest[:length].decode()


def begin(*more):
    words = [smsd, "serve", "--port", str(port), "--store", "desk.db", *more]
    made = subprocess.Popen(words, cwd=folder, stderr=subprocess.DEVNULL)
    atexit.register(made.kill)
    connect().close()
    return made


def listed(*words):
    made = subprocess.run([smsd, "list", *words], cwd=folder, capture_output=True, text=True, timeout=60)
    check(made.returncode == 0, f"list {words} ended with {made.returncode}: {made.stderr}")
    return made.stdout.split("\n")[1:-1]


class Client(threading.Thread):
    """Allocates data sets one after the other, over links that may end at any moment."""

    def __init__(self, job):
        super().__init__()
        self.job, self.number, self.done, self.ends = job, 1, [], False

    def run(self):
        link = None
        while not self.ends:
            try:
                if link is None:
                    link = connect()
                link.sendall(message(f"/job/{self.job}/{self.number}/alloc/{self.job}.N{self.number}", SPACE))
                found = answer(link)
            except OSError:
                found = None
            if found is None:
                link = None
                continue
            check(found[0] == 200 and '"A00"' in found[1], f"{self.job} {self.number}: {found}")
            self.done.append(self.number)
            self.number += 1


def try_kills(kills):
    program = begin()
    clients = [Client(f"JOB{at}") for at in range(1, 5)]
    for client in clients:
        client.start()
    for _ in range(kills):
        time.sleep(0.25)
        program.send_signal(signal.SIGKILL)
        program.wait()
        program = begin()
    for client in clients:
        client.ends = True
    for client in clients:
        client.join()
    told = {f"{client.job}.N{number}" for client in clients for number in client.done}
    program.send_signal(signal.SIGKILL)
    program.wait()
    names = [line.split(",")[0] for line in listed("sets")]
    check(len(names) == len(set(names)), "a data set is listed twice")
    check(told <= set(names), f"acknowledged and not there: {sorted(told - set(names))[:5]}")
    more = set(names) - told
    check(len(more) <= 4, f"there and not acknowledged: {sorted(more)[:9]}")
    used = [line.split(",")[1:] for line in listed("extents")]
    places = [(place[0], place[1]) for place in used]
    check(len(places) == len(set(places)), "a track is granted twice")
    print(f"kills: {kills}, answers told {len(told)}, data sets {len(names)}", flush=True)


def try_connections():
    resource.setrlimit(resource.RLIMIT_NOFILE, (4096, resource.getrlimit(resource.RLIMIT_NOFILE)[1]))
    program = begin("--connections", "1001")
    idle = [connect() for _ in range(1000)]
    link = connect()
    start = time.time()
    for number in range(1, 201):
        link.sendall(message(f"/job/MANY/{number}/alloc/MANY.N{number}", SPACE))
        found = answer(link)
        check(found is not None and found[0] == 200, f"beside a thousand connections: {found}")
    print(f"beside 1,000 idle connections: 200 answers in {time.time() - start:.2f} s", flush=True)
    one_more = connect()
    found = answer(one_more)
    check(found is not None and found[0] == 503, f"one connection more than may be: {found}")
    for other in idle:
        other.close()
    program.kill()
    program.wait()


def try_clients():
    program = begin()
    deaf = connect()
    deaf.setblocking(False)
    try:
        for number in range(1, 20000):
            deaf.send(message(f"/job/DEAF/{number}/alloc/DEAF.N{number}", SPACE))
    except BlockingIOError:
        pass
    link = connect()
    start = time.time()
    link.sendall(message("/job/SLOW/1/alloc/SLOW.N1", SPACE))
    check((answer(link) or (0,))[0] == 200, "beside a client that never reads")
    print(f"beside a client that never reads: {time.time() - start:.2f} s", flush=True)
    for byte in message("/job/SLOW/2/alloc/SLOW.N2", SPACE):
        link.sendall(bytes([byte]))
    check((answer(link) or (0,))[0] == 200, "a message byte by byte")
    many = b"".join(message(f"/job/SLOW/{number}/alloc/SLOW.N{number}", SPACE) for number in range(3, 13))
    data = connect()
    data.sendall(many)
    text = b""
    while text.count(b'"A00"') < 10:
        more = data.recv(65536)
        if not more:
            break
        text += more
    check(text.count(b"HTTP/1.1 200") == 10, "ten messages in one write")
    for head in ("Origin: http://evil.example\r\n", "Sec-Fetch-Site: cross-site\r\n"):
        other = connect()
        other.sendall(message("/job/EVIL/1/alloc/EVIL.N1", SPACE, head))
        check((answer(other) or (0,))[0] == 403, f"a message with {head.strip()}")
    other = connect()
    other.sendall(b"POST /job/EVIL/2/alloc/EVIL.N2 HTTP/1.1\r\nHost: evil.example\r\nContent-Length: 0\r\n\r\n")
    check((answer(other) or (0,))[0] == 403, "a message with another Host")
    program.kill()
    program.wait()
    check(not listed("sets", "--mask", "EVIL.**"), "a message of another site acted")


DAILY = """SMSADMIN 1 ACTIVATE
version = 1
[storclass.SC1]
[mgmtclass.MCT]
expire_after = 2
release = "YES"
[storgroup.SG1.volume.VOL001]
tracks = 100
[routine]
storclass = "PROC STORCLAS SET &STORCLAS = 'SC1' END"
mgmtclass = "PROC MGMTCLAS SET &MGMTCLAS = 'MCT' END"
storgroup = "PROC STORGRP SET &STORGRP = 'SG1' END"
./END
JOB1 1 ALLOC A.A SPACE=(TRK,10) DAY=1
JOB1 2 ALLOC A.B SPACE=(TRK,10) DAY=3
JOB1 3 ALLOC A.C SPACE=(TRK,10) DAY=1 RETPD=5
JOB1 4 USED A.B 4
"""
DAYS = [
    ("3", "DUE A.A DELETE\nDUE A.B RELEASE\nDUE A.C RELEASE\n",
     "MANAGE 1 A.A A03 DELETED 10\nMANAGE 2 A.B A09 RELEASED 6\nMANAGE 3 A.C A09 RELEASED 9\nMANAGED 1 2\n"),
    ("3", "", "MANAGED 0 0\n"),
    ("6", "DUE A.B DELETE\nDUE A.C DELETE\n",
     "MANAGE 4 A.B A03 DELETED 4\nMANAGE 5 A.C A03 DELETED 1\nMANAGED 2 0\n"),
]


def ended(words, status, text=None, given=""):
    made = subprocess.run([smsd, *words], cwd=folder, input=given, capture_output=True, text=True, timeout=60)
    check(made.returncode == status, f"{words} ended with {made.returncode}: {made.stderr}")
    if text is not None:
        check(made.stdout == text, f"{words} printed {made.stdout!r}")
    return made.stderr


def try_days():
    told = ended(["run", "--store", "days.db"], 0, given=DAILY)
    check(told == "smsd: answers: A00 3, A04 1, A08 1\n", f"run said {told!r}")
    for day, told, text in DAYS:
        ended(["manage", day, "--dry-run", "--store", "days.db"], 0, told)
        ended(["manage", day, "--store", "days.db"], 0, text)
    ended(["list", "sets", "--store", "days.db"], 0, "dsn,dataclas,storclas,mgmtclas,group,day,used,extents\n")
    ended(["list", "volumes", "--store", "days.db"], 0,
          "volser,group,status,capacity,free,extents,high,low,longest_gap\nVOL001,SG1,ENABLE,100,100,0,85,1,100\n")


def try_run_and_day():
    answers = "1 1 1 SMSADMIN 1 A04 ACTIVATED 1\n"
    first = subprocess.run([smsd, "run", "--store", "behind.db", "--manage", "3"], cwd=folder, input=DAILY,
                           capture_output=True, text=True, timeout=60)
    check(first.returncode == 0 and first.stdout.startswith(answers) and first.stdout.endswith("END 5 5\n" + DAYS[0][2]),
          f"run with a day ended with {first.returncode}: {first.stdout!r} {first.stderr!r}")
    check(first.stderr == "smsd: answers: A00 3, A03 1, A04 1, A08 1, A09 2\n", f"run with a day said {first.stderr!r}")
    ended(["run", "--store", "behind.db", "--manage", "6", "--strict"], 1, given="JOB1 9 EXTEND A.A\n")
    ended(["list", "sets", "--store", "behind.db"], 0, "dsn,dataclas,storclas,mgmtclas,group,day,used,extents\n")


def try_statuses():
    with open(os.path.join(folder, "small.toml"), "w") as deck:
        deck.write("version = 1\n[storgroup.SG1.volume.VOL001]\ntracks = 0\n")
    ended(["check", "small.toml"], 1)
    ended(["check", "none.toml"], 3)
    ended(["run", "none"], 3)
    for words in (["list", "sets"], ["check", "small.toml"], ["manage", "1"], ["manage", "1", "--dry-run"]):
        ended([*words, "--store", "none.db"], 9)
    with socket.create_server(("127.0.0.1", 0)) as taken:
        ended(["serve", "--port", str(taken.getsockname()[1])], 9)
    ended(["manage", "10000000"], 2)


if len(sys.argv) < 2:
    sys.exit(__doc__)
smsd = os.path.abspath(sys.argv[1])
port = int(sys.argv[2]) if len(sys.argv) > 2 else 18080
kills = int(sys.argv[3]) if len(sys.argv) > 3 else 20
with tempfile.TemporaryDirectory() as folder:
    script = f"SMSADMIN 1 ACTIVATE\n{DECK}./END\n"
    made = subprocess.run([smsd, "run"], cwd=folder, input=script, capture_output=True, text=True)
    if "A04 ACTIVATED 1" not in made.stdout:
        sys.exit(f"the deck isn't active: {made.stdout}{made.stderr}")
    try_kills(kills)
    try_connections()
    try_clients()
    try_days()
    try_run_and_day()
    try_statuses()
print(f"{differing} differ")
sys.exit(1 if differing else 0)
