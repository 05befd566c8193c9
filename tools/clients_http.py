#!/usr/bin/env python3
"""Asks a served desk for allocations by several clients at once, each a process with a connection of its own, and prints how many were answered a second.
usage: tools/clients_http.py PORT CLIENTS COUNT heavy|light
with `smsctl serve PORT C --workers N` running, C one more than CLIENTS; COUNT requests a client, 16 in one write, together at most 40,000
By several workers the server waits for N times C connections: end it by a signal.
heavy: a storage class routine of 60 KB whose statements all run for each request; light: the least routines"""
import multiprocessing, socket, sys, time

if len(sys.argv) != 5 or sys.argv[4] not in ('heavy', 'light'):
    sys.exit(__doc__)
port, clients, count = int(sys.argv[1]), int(sys.argv[2]), int(sys.argv[3])
count = min(count, 40_000 // clients)


def routine():
    lines, number = ['PROC STORCLAS'], 0
    while sys.argv[4] == 'heavy' and sum(len(line) + 1 for line in lines) < 59_900:
        lines.append(f" IF &DSN = 'X{number}.**' THEN SET &STORCLAS = 'SC2'")
        number += 1
    return '\n'.join(lines + [" SET &STORCLAS = 'SC1'", 'END'])


def message(path, body):
    return b'POST %s HTTP/1.1\r\nContent-Length: %d\r\n\r\n%s' % (path, len(body), body)


def answers(link, rest, number):
    """Reads so many answers, and returns how many were granted and what is behind them."""
    granted = 0
    for _ in range(number):
        while True:
            head, found, behind = rest.partition(b'\r\n\r\n')
            size = int(head.split(b'Content-Length: ')[1].split(b'\r\n')[0]) if found else 0
            if found and len(behind) >= size:
                break
            piece = link.recv(65_536)
            if not piece:
                sys.exit('the connection ended')
            rest += piece
        granted += b'"A00"' in behind[:size] or b'A04' in behind[:size]
        rest = behind[size:]
    return granted, rest


def ask(client, ready, told):
    asks = [message(b'/job/JOB%d/%d/alloc/A%d.D%d' % (client, i + 1, client, i), b'{"SPACE":"(TRK,1)"}') for i in range(count)]
    granted, rest = 0, b''
    with socket.create_connection(('127.0.0.1', port), timeout=60) as link:
        link.setsockopt(socket.IPPROTO_TCP, socket.TCP_NODELAY, 1)
        ready.wait()
        begin = time.monotonic()
        for at in range(0, count, 16):
            some = asks[at:at + 16]
            link.sendall(b''.join(some))
            more, rest = answers(link, rest, len(some))
            granted += more
        told.put((begin, time.monotonic(), granted))


deck = f'''version = 1
[storclass.SC1]
[storclass.SC2]
[storgroup.SG1.volume.V00001]
tracks = 982800
[routine]
storclass = """
{routine()}"""
storgroup = "PROC STORGRP SET &STORGRP = 'SG1' END"
'''.encode()
with socket.create_connection(('127.0.0.1', port), timeout=60) as link:
    link.sendall(message(b'/admin/1/activate', deck))
    if answers(link, b'', 1)[0] != 1:
        sys.exit('the deck is refused')
ready, told = multiprocessing.Barrier(clients), multiprocessing.Queue()
asking = [multiprocessing.Process(target=ask, args=(client, ready, told)) for client in range(clients)]
for process in asking:
    process.start()
ends = [told.get() for _ in asking]
taken = max(end for _, end, _ in ends) - min(begin for begin, _, _ in ends)
print(f'{clients * count} requests, {sum(granted for _, _, granted in ends)} granted, {taken:.2f} s, {clients * count / taken:.0f} a second')
