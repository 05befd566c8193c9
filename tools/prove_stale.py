#!/usr/bin/env python3
"""Proves the libraries of this checkout into a folder, side by side, and only those whose sources or libraries below have changed since they were put
there: for a kit whose `rt ci` keeps nothing from one run to the next. A program is checked and not built. It is a working aid and no gate.
usage, at the top of the repository: tools/prove_stale.py FOLDER [CRATE ..]      with no CRATE all; LANES=N for so many at once (4)
FOLDER/crates/NAME/out/rlib has each library, as the tool check-over takes them; FOLDER/logs/NAME.log what the prover said. Each line that is printed
has the crate, its time by the clock and its processor seconds."""
import hashlib, os, shutil, subprocess, sys, threading, time

if len(sys.argv) < 2: sys.exit(__doc__)
folder, named = os.path.abspath(sys.argv[1]), sys.argv[2:]
kit = os.path.dirname(os.path.dirname(os.path.realpath(shutil.which('rt'))))
if not os.path.isdir(f'{kit}/rlibs'): kit = '/opt/rattle'
lanes = int(os.environ.get('LANES', '4'))
uses = {}
for line in open('crates.txt'):
    head, _, tail = line.split('#')[0].partition(':')
    if head.strip(): uses[head.split()[0]] = tail.split()

def own(crate): return [it for it in uses[crate] if it in uses]

def files(crate):
    for part in ('src', 'specs', 'proofs'):
        for at, folders, names in os.walk(f'crates/{crate}/{part}'):
            folders.sort()
            yield from (f'{at}/{it}' for it in sorted(names))

sums, weights = {}, {}
def stamp(crate):
    if crate not in sums:
        it = hashlib.sha256()
        for path in files(crate): it.update(path.encode() + b'\0' + open(path, 'rb').read() + b'\0')
        for below in sorted(own(crate)): it.update(stamp(below).encode())
        sums[crate] = it.hexdigest()
    return sums[crate]

above = {it: [other for other in uses if it in own(other)] for it in uses}
def weight(crate):
    """The lines of the crate and of the longest chain above it."""
    if crate not in weights:
        lines = sum(open(it, 'rb').read().count(b'\n') for it in files(crate))
        weights[crate] = lines + 300 + max([weight(it) for it in above[crate]], default=0)
    return weights[crate]

def library(crate): return f'{folder}/crates/{crate}/out/rlib' if crate in uses else f'{kit}/rlibs'

def all_below(crate, seen):
    for it in uses.get(crate, []):
        if it not in seen:
            seen.append(it)
            all_below(it, seen)
    return seen

def words(crate, root):
    made = ['--crate-name', crate, root, '--extern', f'std={kit}/rlibs/std.rlib', '-L', f'dependency={kit}/rlibs']
    for it in uses[crate]: made += ['--extern', f'{it}={library(it)}/{it}.rlib']
    for it in dict.fromkeys(library(it) for it in all_below(crate, [])): made += ['-L', f'dependency={it}']
    return made + ['--antt-project', f'{kit}/rattle/logic/antt-project.json', '--logic-built', f'{kit}/logic_built', '--links', f'{crate}=']

def is_done(crate):
    path = f'{folder}/stamps/{crate}'
    return os.path.exists(path) and open(path).read() == stamp(crate)

lock, state = threading.Lock(), {}
def prove(crate, jobs):
    started, made = time.time(), f'{folder}/new/{crate}'
    shutil.rmtree(made, ignore_errors=True)
    os.makedirs(made)
    is_program = os.path.exists(f'crates/{crate}/src/main.rt')
    call = [f'{kit}/bin/rattle', 'check' if is_program else 'build', *words(crate, 'src/main.rt' if is_program else 'src/lib.rt'), '--jobs', str(jobs)]
    if not is_program: call += ['-o', f'{made}/{crate}.rlib']
    with open(f'{folder}/logs/{crate}.log', 'w') as log:
        process = subprocess.Popen(call, cwd=f'crates/{crate}', stdout=log, stderr=log)
        _, status, spent = os.wait4(process.pid, 0)
        process.returncode = os.waitstatus_to_exitcode(status)
    with lock:
        if process.returncode == 0:
            if not is_program:
                shutil.rmtree(library(crate), ignore_errors=True)
                os.makedirs(os.path.dirname(library(crate)), exist_ok=True)
                os.rename(made, library(crate))
            open(f'{folder}/stamps/{crate}', 'w').write(stamp(crate))
        state[crate] = 'failed' if process.returncode else 'done'
        print(time.strftime('%H:%M:%S'), crate, 'FAILED' if process.returncode else 'proved',
              f'{time.time() - started:.0f} s, of a processor {spent.ru_utime + spent.ru_stime:.0f} s', flush=True)

for it in ('stamps', 'logs', 'new'): os.makedirs(f'{folder}/{it}', exist_ok=True)
wanted = set(named or uses)
for it in list(wanted): wanted.update(d for d in all_below(it, []) if d in uses)
for it in wanted: state[it] = 'done' if is_done(it) else 'waits'

def free(): return next(int(it.split()[1]) for it in open('/proc/meminfo') if it.startswith('MemAvailable')) / 1e6

running = []
while True:
    running = [it for it in running if it.is_alive()]
    with lock: ready = sorted((it for it in wanted if state[it] == 'waits' and all(state[d] == 'done' for d in own(it))), key=weight, reverse=True)
    if ready and len(running) < lanes and (free() > 5 or not running):
        state[ready[0]] = 'runs'
        # the one with the longest chain above it gets the processors
        running.append(threading.Thread(target=prove, args=(ready[0], 2 if running else 4)))
        running[-1].start()
        time.sleep(0.3)
    elif not ready and not running: break
    else: time.sleep(1)
left = sorted(it for it in wanted if state[it] != 'done')
print(f'not proved: {" ".join(left)}' if left else 'all proved')
sys.exit(1 if left else 0)
