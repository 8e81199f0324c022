#!/usr/bin/env python3
"""examples/session.py [PORT]: a session with xcalls_serve, as docs/SESSIONS.md describes it. It prints what comes for each job until
none is left, and then how long the journal is.
"""
import socket
import sys

LAST = (b"job ", b"ended\n", b"no job\n")


def work(link, answers):
    """Asks for a job; gives the lines of the answer."""
    link.sendall(b"work\n")
    lines = [answers.readline()]
    while lines[-1] and not lines[-1].startswith(LAST):
        lines.append(answers.readline())
    return lines


port = int(sys.argv[1]) if sys.argv[1:] else 7040
with socket.create_connection(("127.0.0.1", port)) as link, link.makefile("rb") as answers:
    while (lines := work(link, answers)) not in ([b""], [b"no job\n"]):
        print(b"".join(lines).decode(), end="")
    link.sendall(b"seen\nquit\n")
    print(answers.readline().decode(), end="")
