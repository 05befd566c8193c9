#!/usr/bin/env python3
"""Asks a served desk for many allocations over one connection, and prints how many were answered a second.
usage: tools/load_http.py PORT COUNT [PIPELINED]    with `smsctl serve PORT 1` running; at most 40,000 requests, for at most 60 seconds"""
import socket, sys, time
port, count = int(sys.argv[1]), min(int(sys.argv[2]), 40_000)
at_once = int(sys.argv[3]) if len(sys.argv) > 3 else 1
deck = b"version = 1\n[storclass.SC1]\n[storgroup.SG1.volume.V00001]\ntracks = 982800\n[routine]\n" \
    b"storclass = \"PROC STORCLAS SET &STORCLAS = 'SC1' END\"\nstorgroup = \"PROC STORGRP SET &STORGRP = 'SG1' END\"\n"


def message(path, body):
    return b"POST %s HTTP/1.1\r\nContent-Length: %d\r\n\r\n%s" % (path, len(body), body)


def answers(link, rest, number):
    """Reads so many answers, and returns their bodies and what is behind them."""
    bodies = []
    while len(bodies) < number:
        head, found, behind = rest.partition(b"\r\n\r\n")
        if found:
            size = int(head.split(b"Content-Length: ")[1].split(b"\r\n")[0])
            if len(behind) >= size:
                bodies.append(behind[:size])
                rest = behind[size:]
                continue
        piece = link.recv(65_536)
        if not piece:
            sys.exit("the connection ended")
        rest += piece
    return bodies, rest


with socket.create_connection(("127.0.0.1", port), timeout=10) as link:
    link.setsockopt(socket.IPPROTO_TCP, socket.TCP_NODELAY, 1)
    link.sendall(message(b"/admin/1/activate", deck))
    bodies, rest = answers(link, b"", 1)
    asks = [message(b"/job/JOB%d/%d/alloc/A.D%d" % (i % 10, i + 1, i), b'{"SPACE":"(TRK,(1,1))"}') for i in range(count)]
    granted, asked, begin = 0, 0, time.monotonic()
    while asked < count and time.monotonic() - begin < 60:
        some = asks[asked:asked + at_once]
        link.sendall(b"".join(some))
        bodies, rest = answers(link, rest, len(some))
        granted += sum(b'"A00"' in body for body in bodies)
        asked += len(some)
    taken = time.monotonic() - begin
print(f"{asked} requests, {granted} granted, {taken:.2f} s, {asked / taken:.0f} a second")
