#!/usr/bin/env python3
"""Refuses the calls of smsctl on the system one by one, and says where the program doesn't do what docs/manual/script.md and
docs/manual/http.md promise. It needs gcc and glibc: a library that is loaded first counts the calls and refuses one of them.

usage: tools/refuse_calls.py PATH/smsctl FOLDER [PART ..]

FOLDER is a folder for the library and for files of records; it should be empty. The parts, all of them where none is named:
- run: `run` over the first path, an activation and an allocation;
- workers: `run --workers 2` over two activations and ten allocations;
- live: `run --workers 2` over an allocation beside an activation of another deck;
- file, records: `run --db` over a new file, and over one that has records;
- serve: `serve` with one connection, on which the deck is activated and a data set allocated;
- refused: `serve` with six connections: one that is cut in its second message, four whose message is refused, one that is
  answered R19.
In each part each of these calls is refused in turn, in a run of its own:
- each allocation: the run ends with 7 and writes nothing, or with 0; then requests may be answered M31;
- each read of standard input fails (3, nothing written) or gives one byte (nothing changes);
- each write to standard output fails (4, and a front was written) or takes one byte (nothing changes);
- each read, write, sync or cut of a file fails, or takes one byte: the run ends with 0, with requests that may be
  answered F30 where it fails, of which standard error then tells, or with 9, 10 or 11 and nothing written (where the
  file is opened, the library takes a read that gives fewer bytes than it asked for as a fault).
In one run more all reads, and in one all writes, take one byte. Behind each run over a file the same script is run again
with nothing refused: it ends with 0, the file is whole, each answer is repeated but M31, F30 and those of purged numbers,
and where nothing was answered otherwise the file holds the records that it holds where nothing was refused. What differs
is told as it is found.
"""
import mmap
import os
import re
import socket
import sqlite3
import struct
import subprocess
import sys
import time

LIBRARY = r"""
#define _GNU_SOURCE
#include <dlfcn.h>
#include <errno.h>
#include <fcntl.h>
#include <stdlib.h>
#include <string.h>
#include <sys/mman.h>
#include <sys/socket.h>
#include <sys/stat.h>
#include <sys/types.h>
#include <sys/uio.h>
#include <unistd.h>

extern void *__libc_malloc(size_t);
extern void *__libc_calloc(size_t, size_t);
extern void *__libc_realloc(void *, size_t);
extern void *__libc_memalign(size_t, size_t);

static long *counter;
static long at;
static int kind = -1, is_short, is_each;
enum { ALLOCATION, INPUT, OUTPUT, FILES };

__attribute__((constructor)) static void begin(void) {
    const char *path = getenv("REFUSE_COUNTER"), *name = getenv("REFUSE_KIND");
    if (!path || !name) return;
    int file = open(path, O_RDWR);
    void *shared = mmap(0, 4096, PROT_READ | PROT_WRITE, MAP_SHARED, file, 0);
    close(file);
    counter = shared;
    at = atol(getenv("REFUSE_AT"));
    is_each = !strcmp(getenv("REFUSE_HOW"), "each");
    is_short = is_each || !strcmp(getenv("REFUSE_HOW"), "short");
    kind = !strcmp(name, "allocation") ? ALLOCATION : !strcmp(name, "input") ? INPUT : !strcmp(name, "output") ? OUTPUT : FILES;
}

static int refused(int which) {
    if (kind != which || !counter) return 0;
    return __sync_add_and_fetch(counter, 1) == at || is_each;
}

void *malloc(size_t size) { if (refused(ALLOCATION)) { errno = ENOMEM; return 0; } return __libc_malloc(size); }
void *calloc(size_t n, size_t size) { if (refused(ALLOCATION)) { errno = ENOMEM; return 0; } return __libc_calloc(n, size); }
void *realloc(void *old, size_t size) { if (refused(ALLOCATION)) { errno = ENOMEM; return 0; } return __libc_realloc(old, size); }
void *aligned_alloc(size_t align, size_t size) { if (refused(ALLOCATION)) { errno = ENOMEM; return 0; } return __libc_memalign(align, size); }
int posix_memalign(void **out, size_t align, size_t size) {
    if (refused(ALLOCATION)) return ENOMEM;
    *out = __libc_memalign(align, size);
    return *out ? 0 : ENOMEM;
}

static int is_file(int fd) { struct stat s; return fd > 2 && !fstat(fd, &s) && S_ISREG(s.st_mode); }
static int is_socket(int fd) { struct stat s; return fd > 2 && !fstat(fd, &s) && S_ISSOCK(s.st_mode); }
#define REAL(name) ((__typeof__(&name))dlsym(RTLD_NEXT, #name))

static ssize_t fails(void) { errno = EIO; return -1; }

ssize_t read(int fd, void *into, size_t count) {
    if ((fd == 0 || is_socket(fd)) && refused(INPUT)) { if (!is_short) return fails(); if (count > 1) count = 1; }
    if (is_file(fd) && refused(FILES)) { if (!is_short) return fails(); if (count > 1) count = 1; }
    return REAL(read)(fd, into, count);
}
ssize_t pread(int fd, void *into, size_t count, off_t place) {
    if (refused(FILES)) { if (!is_short) return fails(); if (count > 1) count = 1; }
    return REAL(pread)(fd, into, count, place);
}
ssize_t pread64(int fd, void *into, size_t count, off64_t place) {
    if (refused(FILES)) { if (!is_short) return fails(); if (count > 1) count = 1; }
    return REAL(pread64)(fd, into, count, place);
}
ssize_t recv(int fd, void *into, size_t count, int flags) {
    if (refused(INPUT)) { if (!is_short) return fails(); if (count > 1) count = 1; }
    return REAL(recv)(fd, into, count, flags);
}
ssize_t write(int fd, const void *from, size_t count) {
    if ((fd == 1 || is_socket(fd)) && refused(OUTPUT)) { if (!is_short) return fails(); if (count > 1) count = 1; }
    if (is_file(fd) && refused(FILES)) { if (!is_short) return fails(); if (count > 1) count = 1; }
    return REAL(write)(fd, from, count);
}
ssize_t send(int fd, const void *from, size_t count, int flags) {
    if (refused(OUTPUT)) { if (!is_short) return fails(); if (count > 1) count = 1; }
    return REAL(send)(fd, from, count, flags);
}
ssize_t writev(int fd, const struct iovec *parts, int count) {
    if ((fd == 1 || is_socket(fd)) && refused(OUTPUT)) { if (!is_short) return fails(); if (count > 1) count = 1; }
    if (is_file(fd) && refused(FILES)) { if (!is_short) return fails(); if (count > 1) count = 1; }
    return REAL(writev)(fd, parts, count);
}
ssize_t pwrite(int fd, const void *from, size_t count, off_t place) {
    if (refused(FILES)) { if (!is_short) return fails(); if (count > 1) count = 1; }
    return REAL(pwrite)(fd, from, count, place);
}
ssize_t pwrite64(int fd, const void *from, size_t count, off64_t place) {
    if (refused(FILES)) { if (!is_short) return fails(); if (count > 1) count = 1; }
    return REAL(pwrite64)(fd, from, count, place);
}
int fsync(int fd) { if (refused(FILES) && !is_short) return (int)fails(); return REAL(fsync)(fd); }
int fdatasync(int fd) { if (refused(FILES) && !is_short) return (int)fails(); return REAL(fdatasync)(fd); }
int ftruncate(int fd, off_t size) { if (refused(FILES) && !is_short) return (int)fails(); return REAL(ftruncate)(fd, size); }
int ftruncate64(int fd, off64_t size) { if (refused(FILES) && !is_short) return (int)fails(); return REAL(ftruncate64)(fd, size); }
"""

DECK = b"""SMSADMIN 1 ACTIVATE
version = 1
[storclass.SC1]
[storgroup.SG1.volume.VOL001]
tracks = 100
[routine]
storclass = "PROC STORCLAS SET &STORCLAS = 'SC1' END"
storgroup = "PROC STORGRP SET &STORGRP = 'SG1' END"
./END
"""
ONE = DECK + b"JOB1 1 ALLOC PAY.MASTER SPACE=(TRK,(10,5))\n"
TWO = DECK + b"SYNC\n" + DECK.replace(b"SMSADMIN 1", b"SMSADMIN 2") + b"".join(
    b"JOB%d %d ALLOC J%d.N%d SPACE=(TRK,1)\n" % (job, number, job, number) for number in range(1, 6) for job in (1, 2)
)
LIVE = (
    DECK
    + b"SYNC\nJOB1 1 DISPLAY SMS,VOLUME(VOL001)\nSYNC\nJOB1 2 ALLOC A.B SPACE=(TRK,1)\n"
    + DECK.replace(b"SMSADMIN 1", b"SMSADMIN 2").replace(b"SC1", b"SC2")
)
MORE = ONE + b"JOB1 2 USED PAY.MASTER 3\nJOB1 3 ALLOC A.C SPACE=(TRK,1)\nJOB1 4 DELETE A.C\nSMSADMIN 2 PURGE JOB1 3\n"
MESSAGES = (
    b"POST /admin/1/activate HTTP/1.1\r\nContent-Length: %d\r\n\r\n" % (len(DECK) - len(b"SMSADMIN 1 ACTIVATE\n./END\n"))
    + DECK[len(b"SMSADMIN 1 ACTIVATE\n"):-len(b"./END\n")]
    + b'POST /job/JOB1/1/alloc/PAY.MASTER HTTP/1.1\r\nContent-Length: 25\r\n\r\n{"SPACE":"(TRK,(10,5))"} '
)
REFUSED = [
    b"POST /job/PAYROLL/7/alloc/PAY.%23TEMP HTTP/1.1\r\nContent-Length: 2\r\n\r\n{}POST /jo",
    b"GET / HTTP/9.9\r\n",
    b"GET /job/A/1/extend/A HTTP/1.1\r\n\r\n",
    b"POST /x HTTP/1.1\r\n\r\n",
    b"POST /admin/1/activate HTTP/1.1\r\n\r\n",
    b"POST /job/A/1/extend/A HTTP/1.1\r\n\r\n",
]
STATUSES_OF_FILES = {9, 10, 11}

differing = 0
folder = ""


def check(holds, what):
    global differing
    if not holds:
        differing += 1
        print(f"differs: {what[:600]}", flush=True)


class Refusal:
    """One call of a kind that is refused: it fails, or is short; or each call of a kind is short."""

    def __init__(self, kind, how, at):
        self.kind, self.how, self.at = kind, how, at

    def __str__(self):
        if self.how == "each":
            return f"each {self.kind} is short"
        return f"{self.kind} {self.at} {'is short' if self.how == 'short' else 'fails'}"

    def environment(self):
        with open(os.path.join(folder, "counter"), "wb") as file:
            file.write(bytes(4096))
        return {
            "LD_PRELOAD": os.path.join(folder, "refuse.so"),
            "REFUSE_COUNTER": os.path.join(folder, "counter"),
            "REFUSE_KIND": self.kind,
            "REFUSE_HOW": self.how,
            "REFUSE_AT": str(self.at),
        }

    def was_made(self):
        with open(os.path.join(folder, "counter"), "rb") as file:
            return struct.unpack("q", file.read(8))[0] >= self.at


def run(program, words, script, refusal=None):
    done = subprocess.run(
        [program, *words], input=script, capture_output=True, timeout=60, env=refusal.environment() if refusal else {}
    )
    tells = b"F30" in done.stderr
    check(tells == (b" F30 KEEPER" in done.stdout), f"{' '.join(words)}: {refusal}: {done.stdout!r}, told {done.stderr!r}")
    return done.returncode, done.stdout


def is_lawful(refusal, wanted, status, text):
    """Whether a run over standard streams ended so with one call refused."""
    if refusal.how != "fail":
        return (status, text) == wanted
    if refusal.kind == "allocation":
        return (status, text) == (7, b"") or (status == 0 and (text == wanted[1] or b" M31" in text))
    if refusal.kind == "input":
        return (status, text) == (3, b"")
    if refusal.kind == "output":
        return status == 4 and wanted[1].startswith(text) and text != wanted[1]
    return (status, text) == wanted


def each(kind, how):
    """The refusals of a kind, one after the other, until a run makes fewer calls of it."""
    at = 1
    if how == "each":
        yield Refusal(kind, how, at)
        return
    while True:
        refusal = Refusal(kind, how, at)
        yield refusal
        if not refusal.was_made():
            return
        at += 1


def kinds(names):
    return [(name, how) for name in names for how in ("fail", "short", "each") if name != "allocation" or how == "fail"]


def are_answered(text, wanted):
    """Whether a text has an answer for each request of the wanted one, of which some may be M31, in any order of places."""
    found, whole = replies(text), replies(wanted)
    return found.keys() == whole.keys() and (
        b" M31" in text or all(reply.split()[0] == whole[key].split()[0] for key, reply in found.items())
    )


def is_lawful_of_workers(refusal, wanted, status, text):
    """The same of a run by several workers, whose places and tracks may differ from run to run."""
    if refusal.how != "fail":
        return status == 0 and are_answered(text, wanted[1])
    if refusal.kind == "allocation":
        return (status, text) == (7, b"") or (status == 0 and are_answered(text, wanted[1]))
    if refusal.kind == "input":
        return (status, text) == (3, b"")
    return status == 4 and len(text) < len(wanted[1])


def try_run(program, words, script, lawful):
    wanted = run(program, words, script)
    check(wanted[0] == 0, f"{' '.join(words)}: {wanted!r}")
    for kind, how in kinds(["allocation", "input", "output"]):
        count = 0
        for refusal in each(kind, how):
            status, text = run(program, words, script, refusal)
            good = not refusal.was_made() or lawful(refusal, wanted, status, text)
            check(good, f"{' '.join(words)}: {refusal}: status {status}, {text!r}")
            count += refusal.was_made()
        print(f"{' '.join(words)}: {kind}, {how}: {count} runs", flush=True)


def records(path):
    """The records in a file, and whether it is whole."""
    connection = sqlite3.connect(path)
    rows = [
        connection.execute(text).fetchall()
        for text in (
            "PRAGMA integrity_check",
            "SELECT dsn, rec FROM sets ORDER BY dsn",
            "SELECT job, number, request, reply FROM replies ORDER BY job, number",
            "SELECT count, bytes FROM decks ORDER BY count",
            "SELECT kind, name, status FROM statuses ORDER BY kind, name",
            "SELECT job, floor FROM floors ORDER BY job",
        )
    ]
    connection.close()
    return rows


def replies(text):
    """What each number of a job is answered, with the lines below it."""
    found, key = {}, None
    for line in text.decode().splitlines():
        words = line.split()
        if line.startswith("  "):
            found[key] += "\n" + line
        elif words and words[0] != "END":
            key = (words[3], words[4])
            found[key] = " ".join(words[5:])
    return found


def are_kept(text, repeated):
    """Whether what was answered is answered again, but for M31 and F30, which aren't kept, and numbers that were purged."""
    again = replies(repeated)
    return all(
        reply.startswith(("M31", "F30")) or again[key] == reply or again[key].startswith("R11")
        for key, reply in replies(text).items()
    )


def remove(path):
    for name in os.listdir(folder):
        if os.path.join(folder, name).startswith(path):
            os.remove(os.path.join(folder, name))


def try_file(program, prepared):
    path = os.path.join(folder, "records.db")
    words = ["run", "--db", path]

    def begin():
        remove(path)
        for script in prepared:
            run(program, words, script)

    begin()
    wanted = run(program, words, MORE)
    whole = records(path)
    name = f"run --db over {'a file with records' if prepared else 'a new file'}"
    for kind, how in kinds(["allocation", "input", "output", "files"]):
        count = 0
        for refusal in each(kind, how):
            begin()
            status, text = run(program, words, MORE, refusal)
            if refusal.was_made():
                good = is_lawful(refusal, wanted, status, text)
                if refusal.kind == "allocation":
                    good |= status in STATUSES_OF_FILES and text == b""
                if refusal.kind == "files":
                    answered = text == wanted[1] or (how == "fail" and b" F30" in text)
                    good = (status == 0 and answered) or (status in STATUSES_OF_FILES and text == b"")
                check(good, f"{name}: {refusal}: status {status}, {text!r}")
                again, repeated = run(program, words, MORE)
                found = records(path)
                check(again == 0 and found[0] == [("ok",)], f"{name}: behind {refusal}: status {again}, {found[0]}")
                check(are_kept(text, repeated), f"{name}: behind {refusal}: {text!r}, then {repeated!r}")
                if text == wanted[1]:
                    check(found[1:] == whole[1:], f"{name}: behind {refusal}: other records")
            count += refusal.was_made()
        print(f"{name}: {kind}, {how}: {count} runs", flush=True)


def talk(port, message):
    """What is heard on a new connection behind this message; None where the connection breaks."""
    with socket.create_connection(("127.0.0.1", port), timeout=20) as link:
        try:
            link.sendall(message)
            link.shutdown(socket.SHUT_WR)
            parts = []
            while part := link.recv(65536):
                parts.append(part)
            return b"".join(parts)
        except OSError:
            return None


def talk_first(child, port, message):
    """The same as soon as the port listens; None too where the program ended before."""
    for _ in range(200):
        if child.poll() is not None:
            return None
        try:
            return talk(port, message)
        except OSError:
            time.sleep(0.01)
    return None


def serve(program, port, messages, refusal=None):
    child = subprocess.Popen(
        [program, "serve", str(port), str(len(messages))],
        stdout=subprocess.PIPE,
        stderr=subprocess.PIPE,
        env=refusal.environment() if refusal else {},
    )
    heard = [talk_first(child, port, messages[0])]
    for message in messages[1:]:
        try:
            heard.append(talk(port, message))
        except OSError:
            heard.append(None)
    try:
        text, _ = child.communicate(timeout=20)
    except subprocess.TimeoutExpired:
        child.kill()
        child.communicate()
        return None, b"", heard
    return child.returncode, text, heard


def are_heard(heard, wanted):
    """Whether each connection heard a front of what it should, but for places; behind an M31 anything may be answered."""
    if any(part and b"M31" in part for part in heard):
        return True
    places = re.compile(rb'"(first|place)":[0-9]+')
    return all(not part or places.sub(b"", whole).startswith(places.sub(b"", part)) for part, whole in zip(heard, wanted))


def try_serve(program, name, messages):
    port = 20000 + os.getpid() % 20000
    wanted = serve(program, port, messages)
    check(wanted[0] == 0 and None not in wanted[2], f"{name}: {wanted!r}")
    for kind, how in kinds(["allocation", "input", "output"]):
        count = 0
        for refusal in each(kind, how):
            port += 1
            status, text, heard = serve(program, port, messages, refusal)
            if refusal.was_made():
                if how == "short":
                    good = (status, text, heard) == wanted
                elif how == "each":
                    # a message may be refused before it was read whole, and the system then breaks the link
                    good = (status, text) == wanted[:2] and are_heard(heard, wanted[2])
                else:
                    good = status in (0, 4, 7, 8, 9) and (status != 7 or text == b"") and are_heard(heard, wanted[2])
                check(good, f"{name}: {refusal}: status {status}, {text!r}, {heard!r}")
            count += refusal.was_made()
        print(f"{name}: {kind}, {how}: {count} runs", flush=True)


PARTS = {
    "run": lambda program: try_run(program, ["run"], ONE, is_lawful),
    "workers": lambda program: try_run(program, ["run", "--workers", "2"], TWO, is_lawful_of_workers),
    "live": lambda program: try_run(program, ["run", "--workers", "2"], LIVE, is_lawful_of_workers),
    "file": lambda program: try_file(program, []),
    "records": lambda program: try_file(program, [ONE]),
    "serve": lambda program: try_serve(program, "serve", [MESSAGES]),
    "refused": lambda program: try_serve(program, "serve, refused messages", REFUSED),
}


def main():
    global folder
    program, folder = os.path.abspath(sys.argv[1]), os.path.abspath(sys.argv[2])
    source = os.path.join(folder, "refuse.c")
    with open(source, "w") as file:
        file.write(LIBRARY)
    subprocess.run(["gcc", "-O1", "-shared", "-fPIC", "-o", os.path.join(folder, "refuse.so"), source, "-ldl"], check=True)
    for part in sys.argv[3:] or PARTS:
        PARTS[part](program)
    print(f"{differing} differ")
    sys.exit(1 if differing else 0)


main()
