"""SMTP servers that are processes of `q_hop`, each of which takes one message for one recipient."""

import contextlib
import os
import signal
import subprocess

from spools import LONGEST, ROOT, Failed, need

HOP = os.path.join(ROOT, "crates", "q_hop", "out", "q_hop")

# What a server says that takes a message for one recipient.
REPLIES = ("220 ready", "250 here", "250 ok", "250 ok", "354 go on", "250 taken")

# How long a server may take to end once all mail is delivered.
PATIENCE = 10


def need_servers():
    """Fails where `q_hop` isn't built."""
    need(HOP, "`cd crates/q_hop && rt run` leaves it there")


def end_by_itself():
    """Ends the process that is begun, should nobody else. (An alarm outlives exec.)"""
    signal.alarm(2 * LONGEST)


@contextlib.contextmanager
def servers():
    """A list of servers, to be filled. None of them is left in the end."""
    started = []
    try:
        yield started
    finally:
        for server in started:
            server.kill()
        for server in started:
            server.wait()
            server.stdout.close()


def start_server(started):
    """Starts a server, which is added to the list, and gives its port."""
    server = subprocess.Popen(
        [HOP, *REPLIES],
        stdin=subprocess.DEVNULL,
        stdout=subprocess.PIPE,
        stderr=subprocess.DEVNULL,
        text=True,
        preexec_fn=end_by_itself,
    )
    started.append(server)
    line = server.stdout.readline().strip()
    server.stdout.close()
    if not line.isdecimal():
        raise Failed(f"{HOP} prints no port")
    return int(line)


def check_taken(started):
    """Fails where a server didn't take its message to the end."""
    for server in started:
        try:
            status = server.wait(timeout=PATIENCE)
        except subprocess.TimeoutExpired:
            raise Failed("a server was sent no message") from None
        if status != 0:
            raise Failed(f"a server ended with status {status}")
