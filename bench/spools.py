"""What the scripts of this folder share: the built program, fresh spools, commands that come to an end,
and the words of a script."""

import argparse
import contextlib
import os
import signal
import subprocess
import sys
import tempfile
import time

ROOT = os.path.dirname(os.path.dirname(os.path.abspath(__file__)))
QMGR = os.path.join(ROOT, "build", "qmgr")

# After so many seconds a command is ended.
LONGEST = 600

# Where a spool has files of messages, and their logs.
FOLDERS = ("incoming", "active", "deferred", "hold", "corrupt", "bounce", "defer")


class Failed(Exception):
    """Why nothing can be measured."""


def need(program, how):
    """Fails where a program isn't built."""
    if not (os.path.isfile(program) and os.access(program, os.X_OK)):
        raise Failed(f"{program} is missing: {how}")


@contextlib.contextmanager
def fresh_spool(folder):
    """A spool in a temporary folder in this one, which is removed in the end."""
    with tempfile.TemporaryDirectory(prefix="qmgr_bench_", dir=folder) as above:
        spool = os.path.join(above, "spool")
        os.mkdir(spool, 0o700)
        os.mkdir(os.path.join(spool, "conf"), 0o700)
        yield spool


def put_conf(spool, name, text):
    """Writes a file of conf."""
    with open(os.path.join(spool, "conf", name), "w", encoding="ascii") as file:
        file.write(text)


def run(words, stdin=subprocess.DEVNULL):
    """Runs a command whose output isn't kept, and gives the seconds that it took. With all that it
    started it is ended where it takes too long, and where this script is ended."""
    started = time.monotonic()
    child = subprocess.Popen(
        words,
        stdin=stdin,
        stdout=subprocess.DEVNULL,
        stderr=subprocess.PIPE,
        text=True,
        start_new_session=True,
    )
    try:
        _, said = child.communicate(timeout=LONGEST)
        spent = time.monotonic() - started
    except subprocess.TimeoutExpired:
        raise Failed(f"{' '.join(words)} took more than {LONGEST} seconds") from None
    finally:
        if child.returncode is None:
            os.killpg(child.pid, signal.SIGKILL)
            child.wait()
    if child.returncode != 0:
        raise Failed(f"{' '.join(words)} ended with status {child.returncode}: {said.strip()}")
    return spent


def replay(spool, events, before=()):
    """Replays an event list on a spool, with these words before the command, and gives the seconds."""
    path = os.path.join(os.path.dirname(spool), "events")
    with open(path, "w", encoding="ascii") as file:
        file.write(events)
    with open(path, "rb") as file:
        return run([*before, QMGR, spool, "replay"], stdin=file)


def files_left(spool):
    """How many files of messages, and logs of them, stand in a spool."""
    return sum(len(os.listdir(os.path.join(spool, folder))) for folder in FOLDERS)


def check_empty(spool):
    """Fails where a message or a log is left."""
    left = files_left(spool)
    if left != 0:
        raise Failed(f"{left} files are left in the spool")


def say_speed(name, messages, seconds):
    """Prints how fast so many messages went."""
    speed = messages / seconds
    print(f"{name}: {speed:.0f} messages a second ({messages} in {seconds:.2f} s)", flush=True)


def _stop(number, _frame):
    # by way of each `finally`
    sys.exit(128 + number)


def ends_by_signals():
    """Lets a signal that ends this script end what it began first."""
    for number in (signal.SIGTERM, signal.SIGHUP):
        signal.signal(number, _stop)


def main(measure, about, usual, most):
    """Measures with the number, and in the folder, that the words of the script say."""
    parser = argparse.ArgumentParser(
        description=about, formatter_class=argparse.RawDescriptionHelpFormatter
    )
    parser.add_argument(
        "-d",
        dest="folder",
        metavar="FOLDER",
        help="where the spools are made, by default the folder for temporary files",
    )
    parser.add_argument(
        "number",
        metavar="NUMBER",
        nargs="?",
        type=int,
        default=usual,
        help=f"1 to {most}, by default {usual}",
    )
    words = parser.parse_args()
    if not 1 <= words.number <= most:
        parser.error(f"{words.number} is no number from 1 to {most}")
    folder = words.folder or tempfile.gettempdir()
    if not os.path.isdir(folder):
        parser.error(f"{folder} is no folder")
    ends_by_signals()
    try:
        need(QMGR, "`make build` leaves it there")
        measure(os.path.abspath(folder), words.number)
    except (Failed, OSError) as error:
        sys.exit(f"{parser.prog}: {error}")
    except KeyboardInterrupt:
        sys.exit(128 + signal.SIGINT)
