"""An instance of Postfix of its own, below a folder, which is measured and taken away again."""

import os
import shutil
import signal
import socket
import subprocess
import time

from spools import Failed, run
from syncs import COUNTING, calls_in

# Where Debian has its processes.
DAEMONS = "/usr/lib/postfix/sbin"

# After so many seconds a delivery is given up.
LONGEST = 600

# How many seconds pass between two looks whether all is delivered.
PAUSE = 0.002

# The queues in which a file of a message may stand.
QUEUES = ("maildrop", "hold", "incoming", "active", "deferred")

MAIN = """compatibility_level = 3.5
queue_directory = {top}/queue
data_directory = {top}/data
daemon_directory = {daemons}
command_directory = /usr/sbin
mail_owner = postfix
setgid_group = postdrop
myhostname = localhost.localdomain
mydestination =
local_recipient_maps =
alias_maps =
alias_database =
inet_interfaces = loopback-only
inet_protocols = ipv4
mynetworks = 127.0.0.0/8
transport_maps = texthash:{top}/etc/transport
smtpd_recipient_restrictions = static:hold, permit
maillog_file =
"""

MASTER = """127.0.0.1:{port} inet n - n - - smtpd
cleanup unix n - n - 0 cleanup
qmgr unix n - n 300 1 qmgr
rewrite unix - - n - - trivial-rewrite
bounce unix - - n - 0 bounce
defer unix - - n - 0 bounce
trace unix - - n - 0 bounce
flush unix n - n 1000? 0 flush
proxymap unix - - n - - proxymap
smtp unix - - n - - smtp
showq unix n - n - - showq
error unix - - n - - error
retry unix - - n - - error
discard unix - - n - - discard
anvil unix - - n - 1 anvil
scache unix - - n - 1 scache
"""


def free_port():
    """A port of 127.0.0.1 that was free a moment ago."""
    with socket.create_server(("127.0.0.1", 0)) as listener:
        return listener.getsockname()[1]


class Instance:
    """Postfix with a queue below a folder."""

    def __init__(self, folder, length):
        self.top = os.path.join(folder, "postfix")
        self.length = length
        self.port = free_port()
        self.queue = os.path.join(self.top, "queue")
        self.etc = os.path.join(self.top, "etc")

    def __enter__(self):
        for name in ("", "queue", "data", "etc"):
            os.mkdir(os.path.join(self.top, name), 0o755)
        shutil.chown(os.path.join(self.top, "data"), "postfix")
        self.put("main.cf", MAIN.format(top=self.top, daemons=DAEMONS))
        self.put("master.cf", MASTER.format(port=self.port))
        self.put("transport", "")
        self.command("start")
        return self

    def __exit__(self, *_):
        self.command("stop")

    def put(self, name, text):
        """Writes a file of the configuration."""
        with open(os.path.join(self.etc, name), "w", encoding="ascii") as file:
            file.write(text)

    def command(self, word):
        """Runs postfix(1) on the instance."""
        run(["postfix", "-c", self.etc, word])

    def route(self, table):
        """Routes by this table from now on."""
        self.put("transport", table)
        self.command("reload")

    def is_empty(self):
        """Whether no message is to be delivered."""
        for queue in ("maildrop", "incoming", "active"):
            with os.scandir(os.path.join(self.queue, queue)) as found:
                if any(True for _ in found):
                    return False
        return True

    def files(self, queue):
        """The paths of the files in a queue, which may be divided into folders."""
        found = []
        for folder, _, names in os.walk(os.path.join(self.queue, queue)):
            found += [os.path.join(folder, name) for name in names]
        return found

    def fill(self, messages, hops, sender="a@x.example", name="b"):
        """Puts messages into the queue, where they are held, and gives their paths."""
        for hop in range(min(hops, messages)):
            count = len(range(hop, messages, hops))
            words = ["-m", str(count), "-s", "1", "-l", str(self.length), "-f", sender.strip("<>")]
            words += ["-t", f"{name}@d{hop}.example", f"127.0.0.1:{self.port}"]
            run(["smtp-source", *words])
        held = self.files("hold")
        if len(held) != messages:
            raise Failed(f"Postfix holds {len(held)} of {messages} messages")
        return held

    def release(self, held):
        """Lets messages go that were held, and tells the queue manager so."""
        for path in held:
            os.rename(path, os.path.join(self.queue, "incoming", os.path.basename(path)))
        with socket.socket(socket.AF_UNIX) as stream:
            stream.connect(os.path.join(self.queue, "public", "qmgr"))
            stream.sendall(b"I")

    def settle(self, held):
        """Lets messages go that were held, and gives the seconds until all are delivered or put off."""
        started = time.monotonic()
        self.release(held)
        while not self.is_empty():
            if time.monotonic() - started > LONGEST:
                raise Failed(f"Postfix took more than {LONGEST} seconds")
            time.sleep(PAUSE)
        return time.monotonic() - started

    def deliver(self, messages, hops):
        """Delivers messages, and gives the seconds."""
        seconds = self.settle(self.fill(messages, hops))
        left = [path for queue in QUEUES for path in self.files(queue)]
        if left:
            raise Failed(f"{len(left)} messages are left in the queues of Postfix")
        return seconds

    def clear(self):
        """Removes all messages."""
        run(["postsuper", "-c", self.etc, "-d", "ALL"])

    def processes(self):
        """The numbers of the instance's processes."""
        with open(os.path.join(self.queue, "pid", "master.pid"), encoding="ascii") as file:
            master = file.read().strip()
        path = f"/proc/{master}/task/{master}/children"
        with open(path, encoding="ascii") as file:
            return [master, *file.read().split()]

    def syncs(self, work):
        """How many syncs the instance makes while some work is done."""
        summary = os.path.join(self.top, "syncs")
        attached = [word for number in self.processes() for word in ("-p", number)]
        words = [word for word in COUNTING if word != "--seccomp-bpf"]
        strace = subprocess.Popen(
            ["strace", *words, "-o", summary, *attached], stderr=subprocess.PIPE, text=True
        )
        for _ in self.processes():
            strace.stderr.readline()
        work()
        time.sleep(1)
        strace.send_signal(signal.SIGINT)
        strace.wait()
        strace.stderr.close()
        return calls_in(summary)
