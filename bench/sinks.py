"""SMTP servers in threads of a script, which answer by the recipient's address and note what they took.

What stands before the first digit of an address says how it is answered: `no` is refused for good, `later`
is refused for now the first time, all others are taken. The content of a message begins with the line
`message NAME`, by which it is known; that of a notice has this line further down.
"""

import collections
import re
import socket
import threading

NAME = re.compile(rb"^message (\S+)\r?$", re.MULTILINE)
FAILED = re.compile(rb"^(\S+@\S+): (refused|expired) \d+\r?$", re.MULTILINE)


class Sinks:
    """Servers on ports of 127.0.0.1, and what they took since the last `forget`."""

    def __init__(self, count):
        self.lock = threading.Lock()
        self.forget()
        self.listeners = [socket.create_server(("127.0.0.1", 0), backlog=64) for _ in range(count)]
        self.hops = [f"[127.0.0.1]:{it.getsockname()[1]}" for it in self.listeners]
        for listener in self.listeners:
            threading.Thread(target=self.accept, args=(listener,), daemon=True).start()

    def forget(self):
        """Forgets what was taken and refused."""
        with self.lock:
            # how often a message was taken for a recipient, and a notice with it
            self.taken = collections.Counter()
            # the recipients that the notices of a message name, one list for each notice
            self.told = {}
            self.tried = set()

    def snapshot(self):
        """What was taken so far."""
        with self.lock:
            return self.taken.copy()

    def accept(self, listener):
        while True:
            stream, _ = listener.accept()
            threading.Thread(target=self.serve, args=(stream,), daemon=True).start()

    def answer_to(self, address):
        """The answer to a recipient."""
        kind = re.match(r"[a-z]*", address)[0]
        with self.lock:
            tried = address in self.tried
            self.tried.add(address)
        if kind == "no":
            return "550 no"
        if kind == "later" and not tried:
            return "451 later"
        return "250 ok"

    def note(self, sender, recipients, content):
        """Notes a message that is taken."""
        name = NAME.search(content)
        label = name[1].decode() if name else "?"
        with self.lock:
            for address in recipients:
                if sender or not content.startswith(b"From: MAILER-DAEMON"):
                    self.taken[label, address] += 1
                else:
                    self.taken["notice of " + label, address] += 1
                    failed = [it[0].decode() for it in FAILED.findall(content)]
                    self.told.setdefault(label, []).append(failed)

    def serve(self, stream):
        try:
            with stream, stream.makefile("rb") as lines:
                Dialogue(self, stream, lines).hold()
        except OSError:
            pass  # the other side was stopped


class Dialogue:
    """One connection."""

    def __init__(self, sinks, stream, lines):
        self.sinks = sinks
        self.stream = stream
        self.lines = lines
        self.sender = ""
        self.recipients = []

    def say(self, reply):
        self.stream.sendall(reply.encode() + b"\r\n")

    def content(self):
        """The content up to its last line; none where the other side is gone before that."""
        lines = []
        for line in self.lines:
            if line == b".\r\n":
                return b"".join(lines)
            lines.append(line)
        return None

    def hold(self):
        self.say("220 ready")
        for line in self.lines:
            command = line.decode().strip()
            address = command[command.find("<") + 1 : command.rfind(">")]
            match command[:4]:
                case "EHLO":
                    self.say("250 here")
                case "MAIL":
                    self.sender = address
                    self.say("250 ok")
                case "RCPT":
                    reply = self.sinks.answer_to(address)
                    if reply.startswith("250"):
                        self.recipients.append(address)
                    self.say(reply)
                case "DATA":
                    self.say("354 go on")
                    content = self.content()
                    if content is None:
                        return
                    self.sinks.note(self.sender, self.recipients, content)
                    self.say("250 taken")
                case _:
                    self.say("221 bye")
                    return
