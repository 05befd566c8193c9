#!/usr/bin/env python3
"""Opens many connections to a served desk, one after the other, and prints how many were answered a second.
usage: tools/links_http.py PORT COUNT [slow]    with `smsctl serve PORT COUNT` running; at most 1,000 connections, for at most 60 seconds
With `slow` each byte of a message is sent by itself, a thousandth of a second behind the one before."""
import socket, sys, time
port, count = int(sys.argv[1]), min(int(sys.argv[2]), 1_000)
slow = sys.argv[3:] == ["slow"]


def send(link, message):
    if not slow:
        link.sendall(message)
        return
    for byte in message:
        link.sendall(bytes([byte]))
        time.sleep(0.001)


def answer(link):
    """Reads one answer whole, and returns its first line."""
    text = b""
    while True:
        head, found, behind = text.partition(b"\r\n\r\n")
        if found and len(behind) >= int(head.split(b"Content-Length: ")[1].split(b"\r\n")[0]):
            return head.split(b"\r\n")[0]
        piece = link.recv(65_536)
        if not piece:
            sys.exit("the connection ended")
        text += piece


answered, begin = 0, time.monotonic()
for number in range(1, count + 1):
    if time.monotonic() - begin > 60:
        break
    with socket.create_connection(("127.0.0.1", port), timeout=10) as link:
        link.setsockopt(socket.IPPROTO_TCP, socket.TCP_NODELAY, 1)
        send(link, b"POST /job/JOB1/%d/extend/A.B HTTP/1.1\r\nHost: 127.0.0.1\r\n\r\n" % number)
        answered += answer(link) == b"HTTP/1.1 200 OK"
taken = time.monotonic() - begin
print(f"{number} connections, {answered} answered, {taken:.2f} s, {number / taken:.0f} a second")
