"""The built server over a pipe, for what measures it."""
import os
import subprocess
import sys
import threading
import time

import folders

TOP = os.path.join(os.path.dirname(os.path.abspath(__file__)), "..")
PROGRAM = os.path.join(TOP, "crates", "faktory_server", "out", "faktory_server")
HELLO = b'HELLO {"v":2}\r\n'
OK = b"+OK\r\n"
# The most bytes of lines that are sent before their replies are read.
AT_ONCE = 1 << 20


def stop(text):
    """Ends with this text and a failing status."""
    print("%s: %s" % (os.path.basename(sys.argv[0]), text), file=sys.stderr)
    sys.exit(1)


def find_program():
    """Fails where the server isn't built."""
    if not os.access(PROGRAM, os.X_OK):
        stop("the server isn't built: ./run faktory_server builds it")


def jid(number):
    """The jid of a job by its number, of 16 bytes."""
    return "8f14%012x" % number


def job(number, queue):
    """A job of 90 bytes or so, in a queue."""
    return '{"jid":"%s","queue":"%s","jobtype":"SendMail","args":[%d],"retry":25}' % (jid(number), queue, number)


def push(number, queue):
    """The line that pushes a job."""
    return ("PUSH %s\r\n" % job(number, queue)).encode()


def push_with(name, members):
    """The line that pushes a job of this jid with some more members."""
    return ('PUSH {"jid":"%s","jobtype":"SendMail","args":[],%s}\r\n' % (name, members)).encode()


def fetch(*queues):
    """The line that fetches from the first of these queues that has a row."""
    return ("FETCH %s\r\n" % " ".join(queues)).encode()


def acknowledge(number):
    """The line that acknowledges a job."""
    return ('ACK {"jid":"%s"}\r\n' % jid(number)).encode()


class Server:
    """A server that has said its greeting and taken a HELLO. Its files lie in the folder, which stays, or in one of its
    own in memory, which goes with it."""

    def __init__(self, folder=None):
        find_program()
        self.own = None if folder else folders.in_memory()
        words = [PROGRAM, "pipe", "--dir", folder or self.own.name]
        begun = time.monotonic()
        self.process = subprocess.Popen(words, stdin=subprocess.PIPE, stdout=subprocess.PIPE)
        self.clock = (~self.process.pid << 3) | 2
        greeting = self.process.stdout.readline()
        self.opened_in = time.monotonic() - begun
        if not greeting.startswith(b"+HI "):
            stop("the server didn't greet")
        self.ask(HELLO)

    def say(self, lines):
        """Says lines, each of which has a reply, and gives the replies: what each of them begins with."""
        replies, batch, size = [], [], 0
        for line in lines:
            batch.append(line)
            size += len(line)
            if size >= AT_ONCE:
                replies += self.answered(batch)
                batch, size = [], 0
        return replies + self.answered(batch)

    def ask(self, line):
        """Says one line, and gives its reply."""
        return self.say([line])[0]

    def answered(self, batch):
        """Says so many lines at once, from a thread of its own, and reads their replies."""
        writer = threading.Thread(target=self.write, args=(b"".join(batch),))
        writer.start()
        replies = [self.reply() for _ in batch]
        writer.join()
        return replies

    def write(self, text):
        self.process.stdin.write(text)
        self.process.stdin.flush()

    def reply(self):
        """The next reply: a line with its sign, or the text of a bulk."""
        line = self.process.stdout.readline()
        if not line:
            stop("the server has ended")
        if not line.startswith(b"$") or line.startswith(b"$-1"):
            return line
        return self.process.stdout.read(int(line[1:]) + 2)

    def seconds(self):
        """The processor time that the server has taken, in seconds."""
        return time.clock_gettime(self.clock)

    def memory(self, what):
        """The bytes of memory that it has (VmRSS) or had at most (VmHWM)."""
        with open("/proc/%d/status" % self.process.pid) as status:
            for line in status:
                if line.startswith(what + ":"):
                    return int(line.split()[1]) * 1024
        return stop("no %s is told" % what)

    def forget_peak(self):
        """From now on the most memory is counted anew."""
        with open("/proc/%d/clear_refs" % self.process.pid, "w") as peak:
            peak.write("5")

    def end(self):
        self.process.stdin.close()
        self.process.stdout.read()
        if self.process.wait() != 0:
            stop("the server ended with a failing status")
        if self.own:
            self.own.cleanup()
