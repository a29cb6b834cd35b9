"""Speaks with a program as a pipe of bash cannot.

    talk.py terminal PROGRAM WORD..    types lines at a terminal, each once the line before was answered
    talk.py pieces PROGRAM WORD..      sees by which writes replies go out

It prints nothing and ends with status 0 where all went well, and else prints what was wanted and what came.
"""

import os
import pty
import select
import socket
import subprocess
import sys
import termios

SECONDS = 10


def differ(wanted, came):
    print(f"wanted {wanted!r}, came {came!r}")
    sys.exit(1)


def await_bytes(file, wanted):
    """Reads until as many bytes came as are wanted, the other side is silent for too long, or it ended."""
    came = b""
    while len(came) < len(wanted) and select.select([file], [], [], SECONDS)[0]:
        try:
            more = os.read(file, len(wanted) - len(came))
        except OSError:
            break
        if not more:
            break
        came += more
    if came != wanted:
        differ(wanted, came)


def await_status(started, wanted):
    try:
        came = started.wait(SECONDS)
    except subprocess.TimeoutExpired:
        started.kill()
        differ(f"status {wanted}", "a program that goes on")
    if came != wanted:
        differ(f"status {wanted}", f"status {came}")


def terminal(words):
    """Types 300 lines, each ended by the key Enter, and then the key that ends the input."""
    keyboard, screen = pty.openpty()
    modes = termios.tcgetattr(screen)
    modes[3] &= ~termios.ECHO
    termios.tcsetattr(screen, termios.TCSANOW, modes)
    started = subprocess.Popen(words, stdin=screen, stdout=screen, stderr=screen, start_new_session=True)
    os.close(screen)
    for number in range(1, 101):
        for typed, shown in [
            (b"insert\tjobs\t%d\tx" % number, b"ok\t%d" % number),
            (b"wait\tjobs\t=0", b"ok\t1"),
            (b"end", b"ok"),
        ]:
            os.write(keyboard, typed + b"\r")
            await_bytes(keyboard, shown + b"\r\n")
    os.write(keyboard, b"\x04")
    await_status(started, 0)


def pieces(words):
    """Takes each write as a message: a reply of up to 4,096 bytes is one, a longer one comes in pieces of 4,096."""
    ours, theirs = socket.socketpair(socket.AF_UNIX, socket.SOCK_SEQPACKET)
    started = subprocess.Popen(words, stdin=subprocess.PIPE, stdout=theirs)
    theirs.close()
    ours.settimeout(SECONDS)
    number = 0
    for length in [1, 4079, 4080, 4081, 8176, 8177, 60000]:
        number += 1
        text = b"x" * length
        insert = b"insert\tjobs\t%d\t%s\n" % (number, text)
        row = b"rows\t1\nrow\t%d\t%d\t%s\n" % (number, number, text)
        for line, reply in [
            (insert, b"ok\t%d\n" % number),
            (b"wait\tjobs\t=0\n", b"ok\t1\n"),
            (b"select\tjobs\t9\n", row),
            (b"end\n", b"ok\n"),
        ]:
            started.stdin.write(line)
            started.stdin.flush()
            for at in range(0, len(reply), 4096):
                try:
                    came = ours.recv(65536)
                except socket.timeout:
                    came = b""
                if came != reply[at : at + 4096]:
                    differ(f"a write of {len(reply[at : at + 4096])} bytes", f"{len(came)} bytes {came[:40]!r}")
    started.stdin.close()
    await_status(started, 0)


if __name__ == "__main__":
    {"terminal": terminal, "pieces": pieces}[sys.argv[1]](sys.argv[2:])
