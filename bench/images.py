"""What the scripts share that stop the program and look what stands on the disk: images of ext4, and what
is left of a spool."""

import contextlib
import os
import subprocess
import time

from spools import QMGR, Failed

QUEUES = ("incoming", "active", "deferred", "hold", "corrupt")


def call(*words):
    """Runs a command of the system, which has to succeed."""
    done = subprocess.run(words, stdout=subprocess.DEVNULL, stderr=subprocess.PIPE, text=True)
    if done.returncode != 0:
        raise Failed(f"{' '.join(words)}: {done.stderr.strip()}")


def unmount(place):
    """Unmounts a folder, which the system may still hold for an instant."""
    for _ in range(50):
        if subprocess.run(["umount", "-q", place], stderr=subprocess.DEVNULL).returncode == 0:
            return
        time.sleep(0.1)
    call("umount", place)


def make_image(path, megabytes):
    """Makes an image of ext4 without a file."""
    with open(path, "wb") as file:
        file.truncate(megabytes << 20)
    call("mkfs.ext4", "-q", "-F", path)


@contextlib.contextmanager
def mounted(image, place):
    """Mounts an image at a folder, and gives the path of a spool in it."""
    os.makedirs(place, exist_ok=True)
    call("mount", "-o", "loop", image, place)
    try:
        yield os.path.join(place, "spool")
    finally:
        unmount(place)


def stands(spool):
    """Where the file of each id stands."""
    places = {}
    for queue in QUEUES:
        folder = os.path.join(spool, queue)
        for name in os.listdir(folder) if os.path.isdir(folder) else ():
            message = name.split("-", 1)[1] if queue == "deferred" else name
            places.setdefault(message, []).append(f"{queue}/{name}")
    return places


def listed(spool):
    """The recipients that are listed of each id."""
    shown, message = {}, None
    words = [QMGR, spool, "queue"]
    done = subprocess.run(words, stdout=subprocess.PIPE, stderr=subprocess.DEVNULL, text=True)
    for line in done.stdout.splitlines():
        if line.startswith("  "):
            shown.setdefault(message, []).append(line.split()[0])
        elif not line.startswith("--"):
            message = line.split()[1]
    return shown
