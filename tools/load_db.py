#!/usr/bin/env python3
"""Compares a run over a database with the same statements in the same transactions by Debian's sqlite3.
usage: tools/load_db.py SMSCTL N [FOLDER]     N allocations; FOLDER lies on the disk that is measured (default: here)
It runs SMSCTL over a file, writes down the statements that its commits come to, runs these by sqlite3 with a log and a sync
a commit as the desk has them, and compares both files row by row. It says the seconds of each, how many of them are a processor's,
and what a sync costs alone. A disk's syncs vary much, so run it more than once."""
import os, resource, subprocess, sys, time
smsctl, count = os.path.abspath(sys.argv[1]), int(sys.argv[2])
folder = sys.argv[3] if len(sys.argv) > 3 else '.'
here = os.path.dirname(os.path.abspath(__file__))
os.chdir(folder)
for name in ('desk.db', 'plain.db'):
    for tail in ('', '-wal', '-shm'):
        if os.path.exists(name + tail): os.remove(name + tail)
script = subprocess.run([sys.executable, os.path.join(here, 'load.py'), 'alloc', str(count)], stdout=subprocess.PIPE, check=True).stdout

def used():
    times = resource.getrusage(resource.RUSAGE_CHILDREN)
    return times.ru_utime + times.ru_stime

# the seconds of a run, those of a processor, and how it ended
def timed(words, text):
    begin, before = time.time(), used()
    ended = subprocess.run(words, input=text, stdout=subprocess.PIPE)
    return time.time() - begin, used() - before, ended

memory, memory_used, plain = timed([smsctl, 'run'], script)
desk, desk_used, ended = timed([smsctl, 'run', '--db', 'desk.db'], script)
assert ended.returncode == 0 and ended.stdout == plain.stdout, 'the run over the file answers otherwise'

def rows(db, query):
    text = subprocess.run(['sqlite3', '-readonly', db, query], stdout=subprocess.PIPE, check=True).stdout.decode()
    return [line.split('|') for line in text.splitlines()]

def blob(digits): return "x'" + digits + "'"

# the statements of the commits, in the order of their places
sets = {row[0]: row[1] for row in rows('desk.db', 'SELECT dsn, hex(rec) FROM sets')}
lines = ['PRAGMA journal_mode=WAL;', 'PRAGMA synchronous=FULL;', 'BEGIN;']
lines += [row[0] + ';' for row in rows('desk.db', "SELECT replace(sql, char(10), ' ') FROM sqlite_schema WHERE sql IS NOT NULL ORDER BY rowid")]
lines.append('COMMIT;')
for job, number, place, request, reply in rows('desk.db', 'SELECT job, number, place, hex(request), hex(reply) FROM replies ORDER BY place'):
    lines.append('BEGIN;')
    if job == 'SMSADMIN':
        lines.append('DELETE FROM statuses;')
        for kind, name, status in rows('desk.db', 'SELECT kind, name, status FROM statuses'):
            lines.append(f"INSERT INTO statuses (kind, name, status) VALUES ({kind}, '{name}', {status});")
        for number_of, bytes_of in rows('desk.db', 'SELECT count, hex(bytes) FROM decks'):
            lines.append(f'INSERT INTO decks (count, bytes) VALUES ({number_of}, {blob(bytes_of)});')
    else:
        dsn = f'A.D{int(number) - 1}'
        lines.append(f"INSERT OR REPLACE INTO sets (dsn, rec) VALUES ('{dsn}', {blob(sets[dsn])});")
    lines.append(f"SELECT rowid FROM floors WHERE job = '{job}' AND floor > {number};")
    lines.append(f"INSERT INTO replies (job, number, place, request, reply) VALUES ('{job}', {number}, {place}, {blob(request)}, {blob(reply)});")
    lines.append('COMMIT;')
c, c_used, _ = timed(['sqlite3', 'plain.db'], '\n'.join(lines).encode())
for table in ('sets', 'replies', 'decks', 'statuses', 'floors'):
    query = f'SELECT * FROM {table} ORDER BY 1, 2'.replace('*', {'sets': 'dsn, hex(rec)', 'replies': 'job, number, place, hex(request), hex(reply)', 'decks': 'count, hex(bytes)'}.get(table, '*'))
    assert rows('desk.db', query) == rows('plain.db', query), table
check = rows('desk.db', 'PRAGMA integrity_check')
assert check == [['ok']], check

# what a sync of one page costs here, in a file that has its length
syncs = min(count, 500)
with open('sync.tmp', 'wb') as out:
    out.write(b'x' * 4096 * 64); out.flush(); os.fsync(out.fileno())
    begin = time.time()
    for at in range(syncs):
        os.pwrite(out.fileno(), b'y' * 4096, at % 64 * 4096); os.fdatasync(out.fileno())
    sync = (time.time() - begin) / syncs
os.remove('sync.tmp')
print(f'{count} allocations: in memory {memory:.2f} s, over a file {desk:.2f} s, sqlite3 the same statements {c:.2f} s ({desk / c:.2f} times)')
print(f'of a processor: in memory {memory_used:.2f} s, over a file {desk_used:.2f} s, sqlite3 {c_used:.2f} s; a sync of one page: {sync * 1000:.2f} ms')
