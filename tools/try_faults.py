#!/usr/bin/env python3
"""Tries the programs smsctl and smsc where things fail outside them, and says where they don't do what docs/manual/script.md and
docs/manual/tool.md promise.

usage: tools/try_faults.py PATH/smsctl PATH/smsc [LARGE_SCRIPT]

- Memory limits from 3 MB up: each run ends with status 7 and writes nothing, or with 0 and writes the whole text; a text
  with M31 in it, where requests were answered so, isn't compared.
- A closed pipe and a full disk as standard output of each command of both programs: status 4 with a sentence on standard
  error; of `run --db` the file then has all that was answered. A folder as standard input: status 3 with a sentence and
  nothing written; 0 of the commands that don't read it.
- A limit on the size of files, by 4 KB from none up, in place of a full disk, for `run --db`: status 9 or 10 and nothing
  written, or 0 with the whole text, or with requests answered F30, of which standard error tells.
- The script cut after each of its bytes: each cut ends as docs/manual/script.md says.
- Each list of words of both programs one word too long, too short, with one of its words left out, with each letter
  changed, with a control character, and with each number at its limits and past them: status 2 with a sentence on standard
  error, which has no control character, or another status where it is a list. Of serve no list is tried that would open a
  port.

What differs is told as it is found.
"""
import itertools
import os
import resource
import signal
import socket
import sqlite3
import subprocess
import sys
import tempfile
import time

DECK = b"""version = 1
[storclass.SC1]
[storgroup.SG1.volume.VOL001]
tracks = 100
[routine]
storclass = "PROC STORCLAS SET &STORCLAS = 'SC1' END"
storgroup = "PROC STORGRP SET &STORGRP = 'SG1' END"
"""
SCRIPT = b"SMSADMIN 1 ACTIVATE\n" + DECK + b"./END\nJOB1 1 ALLOC PAY.MASTER SPACE=(TRK,(10,5))\n"
MANY = SCRIPT + b"".join(b"JOB1 %d ALLOC A%d.B SPACE=(TRK,1)\n" % (number, number) for number in range(2, 60))
COMPARISON = b"OLD\n" + DECK + b"./END\nNEW\n" + DECK + b"./END\nCASES\ncase,job,dsn\nC1,JOB1,A.B\n"

# How the fronts of the script end, from one length to another: a fault, or the last line of the output.
CUTS = [
    (0, 0, "END 0 0"),
    (1, 18, "S1 1"),
    (19, 211, "S2 1"),
    (212, 213, "END 1 1"),
    (214, 226, "S1 10"),
    (227, 229, "END 2 2"),
    (230, 230, "S1 10"),
    (231, 237, "END 2 2"),
    (238, 254, "S1 10"),
    (255, 256, "END 2 2"),
]

differing = 0


def check(holds, what):
    global differing
    if not holds:
        differing += 1
        print(f"differs: {what[:600]}", flush=True)


def limited(megabytes):
    def limit():
        size = megabytes * 1024 * 1024
        resource.setrlimit(resource.RLIMIT_AS, (size, size))

    return limit


def run(program, words, script, megabytes=None, stdout=subprocess.PIPE):
    before = limited(megabytes) if megabytes else None
    done = subprocess.run([program, *words], input=script, stdout=stdout, stderr=subprocess.PIPE, preexec_fn=before)
    return done.returncode, done.stdout


def try_memory(program, words, script):
    whole = run(program, words, script)
    counts = {}
    for megabytes in range(3, 400):
        status, text = run(program, words, script, megabytes)
        counts[status] = counts.get(status, 0) + 1
        if status == 7:
            check(text == b"", f"{words} under {megabytes} MB wrote {len(text)} bytes with status 7")
        elif status == 0:
            check((status, text) == whole or b"M31" in text, f"{words} under {megabytes} MB wrote another text")
        else:
            # below a few MB the system can't load the program
            check(status < 0 or status == 127, f"{words} under {megabytes} MB ended with {status}")
        if counts.get(0, 0) == 20:
            break
    print(f"memory limits, {' '.join(words)}: runs by their status {counts}", flush=True)


def is_told(done):
    """Whether standard error has the status and a sentence."""
    return len(done.stderr.decode().splitlines()) > 1


def try_full_output(program, words, script):
    name = " ".join(words)
    reading, writing = os.pipe()
    os.close(reading)
    for what, output in [("a full disk", os.open("/dev/full", os.O_WRONLY)), ("a closed pipe", writing)]:
        done = subprocess.run([program, *words], input=script, stdout=output, stderr=subprocess.PIPE)
        os.close(output)
        check(done.returncode == 4 and is_told(done), f"{name}, {what}: status {done.returncode}, {done.stderr!r}")


def try_folder(program, words, reads):
    folder = os.open("/", os.O_RDONLY)
    done = subprocess.run([program, *words], stdin=folder, stdout=subprocess.PIPE, stderr=subprocess.PIPE)
    os.close(folder)
    if reads:
        good = done.returncode == 3 and done.stdout == b"" and is_told(done)
    else:
        good = done.returncode == 0
    check(good, f"{' '.join(words)}, a folder as standard input: status {done.returncode}, {done.stdout!r}, {done.stderr!r}")


def try_serve(program):
    """A served desk, whose lines can't be written, and one whose standard input is a folder, which it doesn't read."""
    port = 20000 + os.getpid() % 20000
    reading, writing = os.pipe()
    os.close(reading)
    full, folder = os.open("/dev/full", os.O_WRONLY), os.open("/", os.O_RDONLY)
    outputs = [("a full disk", full, None, 4), ("a closed pipe", writing, None, 4), ("a folder", subprocess.DEVNULL, folder, 0)]
    for what, output, source, wanted in outputs:
        port += 1
        child = subprocess.Popen([program, "serve", str(port), "1"], stdin=source, stdout=output, stderr=subprocess.PIPE)
        heard = ask(port)
        _, told = child.communicate(timeout=20)
        good = child.returncode == wanted and b"R19" in heard and (wanted == 0 or len(told.splitlines()) > 2)
        check(good, f"serve, {what}: status {child.returncode}, {heard!r}, {told!r}")
    for opened in (writing, full, folder):
        os.close(opened)


def ask(port):
    """What a served desk answers to a request, once the port listens."""
    for _ in range(500):
        try:
            with socket.create_connection(("127.0.0.1", port), timeout=20) as link:
                link.sendall(b"POST /job/A/1/extend/A HTTP/1.1\r\n\r\n")
                link.shutdown(socket.SHUT_WR)
                parts = []
                while part := link.recv(65536):
                    parts.append(part)
                return b"".join(parts)
        except ConnectionRefusedError:
            time.sleep(0.01)
    return b""


def try_streams(program, tool):
    deskless = [["gen", "1", "10"], ["--help"], ["--version"]]
    for words in [["run"], ["run", "--volumes"], ["run", "--workers", "2"], ["run", "--manage", "3"], *deskless]:
        try_full_output(program, words, SCRIPT)
        try_folder(program, words, words not in deskless)
    routine = b"PROC STORCLAS END"
    for words, script in [
        (["translate", "STORCLAS"], routine), (["validate"], DECK), (["simulate"], SCRIPT), (["compare"], COMPARISON),
        (["--help"], b""), (["--version"], b""),
    ]:
        try_full_output(tool, words, script)
        try_folder(tool, words, not words[0].startswith("--"))
    try_serve(program)
    print("a full disk, a closed pipe and a folder: each command tried", flush=True)


def kept_replies(path):
    connection = sqlite3.connect(path)
    count = connection.execute("SELECT count(*) FROM replies").fetchone()[0]
    connection.close()
    return count


def try_database(program):
    """The same of a run over a database, each over a new file."""
    with tempfile.TemporaryDirectory() as folder:
        for number, output in enumerate([os.open("/dev/full", os.O_WRONLY), os.open("/dev/null", os.O_WRONLY)]):
            path = os.path.join(folder, f"{number}.db")
            done = subprocess.run([program, "run", "--db", path], input=SCRIPT, stdout=output, stderr=subprocess.PIPE)
            os.close(output)
            wanted = 4 if number == 0 else 0
            good = done.returncode == wanted and kept_replies(path) == 2
            check(good, f"run --db, output {number}: status {done.returncode}, {done.stderr!r}")
        reading, writing = os.pipe()
        os.close(reading)
        path = os.path.join(folder, "pipe.db")
        done = subprocess.run([program, "run", "--db", path], input=SCRIPT, stdout=writing, stderr=subprocess.PIPE)
        os.close(writing)
        check(done.returncode == 4 and is_told(done) and kept_replies(path) == 2, f"run --db, a closed pipe: {done!r}")
        path = os.path.join(folder, "folder.db")
        try_folder(program, ["run", "--db", path], True)
        check(kept_replies(path) == 0, "run --db, a folder: records were made")
    print("a full disk, a closed pipe and a folder: run --db tried", flush=True)


def limited_files(size):
    def limit():
        signal.signal(signal.SIGXFSZ, signal.SIG_IGN)
        resource.setrlimit(resource.RLIMIT_FSIZE, (size, size))

    return limit


def try_file_sizes(program):
    counts = {}
    with tempfile.TemporaryDirectory() as folder:
        whole = subprocess.run([program, "run", "--db", os.path.join(folder, "whole.db")], input=MANY, capture_output=True)
        check(whole.returncode == 0 and whole.stderr == b"", f"run --db: {whole.returncode}, {whole.stderr!r}")
        for kilobytes in range(0, 8192, 4):
            path = os.path.join(folder, f"{kilobytes}.db")
            before = limited_files(kilobytes * 1024)
            done = subprocess.run([program, "run", "--db", path], input=MANY, capture_output=True, preexec_fn=before)
            name = f"run --db with files of {kilobytes} KB"
            kind = done.returncode, b" F30 KEEPER" in done.stdout
            counts[kind] = counts.get(kind, 0) + 1
            if done.returncode == 0:
                check(done.stdout == whole.stdout or kind[1], f"{name}: another text")
                check((b"F30" in done.stderr) == kind[1], f"{name}: told {done.stderr!r}")
            else:
                check(done.returncode in (9, 10) and done.stdout == b"" and is_told(done), f"{name}: {done!r}")
            if counts.get((0, False), 0) == 3:
                break
            for end in ("", "-wal"):
                if os.path.exists(path + end):
                    os.remove(path + end)
    print(f"files of limited size: runs by their status and whether one was answered F30 {counts}", flush=True)


def try_cuts(program):
    for first, last, end in CUTS:
        for length in range(first, last + 1):
            done = subprocess.run([program, "run"], input=SCRIPT[:length], capture_output=True)
            if end.startswith("S"):
                good = (done.returncode, done.stdout) == (5, b"") and done.stderr.startswith(f"smsctl: status 5 {end}\n".encode())
            else:
                good = done.returncode == 0 and done.stdout.endswith(f"{end}\n".encode())
            check(good, f"the script cut after {length} bytes: status {done.returncode}, {done.stdout!r}, {done.stderr!r}")
    check(CUTS[-1][1] == len(SCRIPT), "the script has another length")
    print(f"the script cut after each byte: {len(SCRIPT) + 1} runs", flush=True)


# The least and the greatest number that may stand for a word in capitals.
LIMITS = {
    "N": (1, 16),
    "DAY": (0, 9999999),
    "SEED": (0, 4294967295),
    "COUNT": (1, 40000),
    "PORT": (1, 65535),
    "CONNECTIONS": (1, 1000000),
}

SMSCTL_LISTS = [
    "run",
    "run --volumes",
    "run --workers N",
    "run --workers N --volumes",
    "run --db FILE",
    "run --manage DAY",
    "gen SEED COUNT",
    "serve PORT CONNECTIONS",
    "serve PORT CONNECTIONS --workers N",
    "--help",
    "--version",
]

# Behind `--help` and `--version` smsc reads no further word.
SMSC_LISTS = [
    "translate DATACLAS",
    "translate STORCLAS",
    "translate MGMTCLAS FILE",
    "translate STORGRP",
    "validate",
    "validate FILE",
    "simulate",
    "explain FILE",
    "coverage",
    "lint FILE --fail",
    "compare",
    "compare FILE FILE FILE --changed --fail",
]

# The subcommands of smsc: how many files each takes, and which flags.
SMSC_COMMANDS = {
    "translate": (1, []),
    "validate": (1, []),
    "simulate": (1, []),
    "explain": (1, []),
    "coverage": (1, []),
    "lint": (1, ["--fail"]),
    "compare": (3, ["--changed", "--fail"]),
}
KINDS = ["DATACLAS", "STORCLAS", "MGMTCLAS", "STORGRP"]


def is_as_asked(part, word):
    if part in LIMITS:
        least, most = LIMITS[part]
        return word.isascii() and word.isdigit() and len(word) <= 10 and least <= int(word) <= most
    return part == "FILE" or part == word


def is_known(lists, words):
    return any(
        len(parts) == len(words) and all(is_as_asked(part, word) for part, word in zip(parts, words))
        for parts in (known.split() for known in lists)
    )


def is_known_to_smsc(words):
    """Whether smsc knows these words: a subcommand, its kind, files, and flags, each at most once."""
    if not words or words[0] not in SMSC_COMMANDS:
        return False
    most, flags = SMSC_COMMANDS[words[0]]
    files = [word for word in words[1:] if not word.startswith("-")]
    given = [word for word in words[1:] if word.startswith("-")]
    if words[0] == "translate":
        if not files or files[0] not in KINDS:
            return False
        files = files[1:]
    return len(files) <= most and all(flag in flags for flag in given) and len(set(given)) == len(given)


def samples(part, folder):
    """Words that may stand for this part, and words that may not."""
    if part in LIMITS:
        least, most = LIMITS[part]
        return [str(least), str(most)], [str(most + 1), "-1", "+1", "", "1x", "12345678901"] + ["0"] * least
    if part == "FILE":
        return [os.path.join(folder, "tried.db")], []
    changed = [part[:at] + "#" + part[at + 1:] for at in range(len(part))]
    return [part], changed + [part.swapcase(), part + " "]


def variants(parts, folder):
    """Lists of words near to this one."""
    good = [samples(part, folder)[0] for part in parts]
    for words in itertools.product(*good):
        yield list(words)
    least = [words[0] for words in good]
    for at, part in enumerate(parts):
        yield least[:at] + least[at + 1:]
        for word in samples(part, folder)[1]:
            yield least[:at] + [word] + least[at + 1:]
        if part != "FILE":
            yield least[:at] + [part + "\x1b[31m\n"] + least[at + 1:]
    for more in ["more", "1", "--volumes", "--help", "", "\t\x7f"]:
        yield least + [more]


def try_words(program, lists):
    counts = {}
    with tempfile.TemporaryDirectory() as folder:
        for known in lists:
            for words in variants(known.split(), folder):
                of_tool = os.path.basename(program) == "smsc"
                is_list = is_known_to_smsc(words) if of_tool else is_known(lists, words)
                if is_list and words[0] in ("serve", "gen"):
                    continue
                done = subprocess.run([program, *words], input=b"", stdout=subprocess.PIPE, stderr=subprocess.PIPE)
                counts[done.returncode] = counts.get(done.returncode, 0) + 1
                shows_help = of_tool and "--help" in words and words[0] in SMSC_COMMANDS
                is_refused = not is_list and not shows_help
                check((done.returncode == 2) == is_refused, f"{words} ended with {done.returncode}")
                check(not is_refused or is_told(done), f"{words} was refused without a sentence")
                is_plain = all(byte == 10 or 32 <= byte < 127 for byte in done.stderr)
                check(is_plain, f"{words} was refused by {done.stderr!r}")
    print(f"words of {os.path.basename(program)}: runs by their status {counts}", flush=True)


def main():
    program, tool = sys.argv[1:3]
    script = SCRIPT
    if len(sys.argv) > 3:
        with open(sys.argv[3], "rb") as file:
            script = file.read()
    try_memory(program, ["run"], script)
    try_memory(program, ["gen", "1", "2000"], b"")
    try_streams(program, tool)
    try_database(program)
    try_file_sizes(program)
    try_cuts(program)
    try_words(program, SMSCTL_LISTS)
    try_words(tool, SMSC_LISTS)
    print(f"{differing} differ")
    sys.exit(1 if differing else 0)


main()
