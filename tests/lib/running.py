"""Runs of the program for tests that make many of them: its input, output and errors go through files in memory."""

import collections
import os
import signal
import socket
import subprocess
import sys

HERE = os.path.dirname(os.path.dirname(os.path.dirname(os.path.realpath(__file__))))
SECONDS = 30  # for one run
COMMANDS = ("list", "show", "check", "state", "octets", "write", "normalise", "split", "join", "signatures", "digest", "canonical", "cleartext", "diff")

Ended = collections.namedtuple("Ended", "status out err told")


def processor_seconds():
    """What this process and those that it ran have used. Unlike the clock it says the same on a busy machine."""
    return sum(os.times()[:4])


def built(test):
    """The program, proved and built by its launcher where it isn't yet. Where it can't be, the test has failed."""
    with open(f"{HERE}/examples/rfc9580-a1.asc", "rb") as it:
        if subprocess.run([f"{HERE}/opgp", "list"], stdin=it, stdout=subprocess.DEVNULL, check=False).returncode:
            print(f"{test}: the program can't be built", file=sys.stderr)
            print("0 passed, 1 failed")
            sys.exit(1)
    return f"{HERE}/crates/opgp_tool/out/opgp_tool"


class Runner:
    """Starts the program, whose commands say no more than a fault (--quiet), unless they are to (--hints always). One that takes too long is killed, and
    ends with the status -9."""

    def __init__(self, path, quiet=True):
        self.path, self.quiet = path, quiet
        self.files = [os.memfd_create(name) for name in ("input", "out", "err", "told")]
        self.child = 0
        signal.signal(signal.SIGALRM, self.stop)

    def stop(self, *_):
        if self.child:
            os.kill(self.child, signal.SIGKILL)

    def close(self):
        for it in self.files:
            os.close(it)

    def start(self, words, source, environment):
        ends = [(os.POSIX_SPAWN_DUP2, source, 0)]
        for file, end in zip(self.files[1:], (1, 2, 9)):
            os.ftruncate(file, 0)
            os.lseek(file, 0, os.SEEK_SET)
            ends.append((os.POSIX_SPAWN_DUP2, file, end))
        signal.alarm(SECONDS)
        if words and words[0] in COMMANDS:
            words = [words[0], *(["--quiet"] if self.quiet else ["--hints", "always"]), *words[1:]]
        self.child = os.posix_spawn(self.path, ["opgp", *words], environment, file_actions=ends)

    def end(self):
        """The end of the run: its status, and what it wrote to standard output, standard error and descriptor 9."""
        status = os.waitstatus_to_exitcode(os.waitpid(self.child, 0)[1])
        self.child = 0
        signal.alarm(0)
        return Ended(status, *(os.pread(it, os.fstat(it).st_size, 0) for it in self.files[1:]))

    def run(self, words, octets, environment=None):
        """The end of a run over these octets, in a file."""
        source = self.files[0]
        os.ftruncate(source, 0)
        os.lseek(source, 0, os.SEEK_SET)
        view = memoryview(octets)
        while view:
            view = view[os.write(source, view) :]
        os.lseek(source, 0, os.SEEK_SET)
        self.start(words, source, environment or {})
        return self.end()

    def run_in_pieces(self, words, pieces):
        """The same, where each read gives one of the pieces: the messages of a socket that keeps them apart."""
        ours, theirs = socket.socketpair(socket.AF_UNIX, socket.SOCK_SEQPACKET)
        with ours, theirs:
            self.start(words, theirs.fileno(), {})
            theirs.close()
            try:
                for piece in pieces:
                    ours.send(piece)
            except OSError:  # it reads no more: of an input past its limit
                pass
            ours.close()
            return self.end()
