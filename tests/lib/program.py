"""The built program, as tests call it."""

import json
import os
import socket
import subprocess
import sys
import time

from laid import TOP

# the script, which builds the program where it isn't yet; the program itself starts faster
SCRIPT = f"{TOP}/fed"
FED = f"{TOP}/out/fed"
PATIENCE = 60
# sentences on standard error are wanted, whoever runs the test
ENVIRONMENT = {its: value for its, value in os.environ.items() if its != "FED_QUIET"}


def run(words, given=b"", folder=None, out=subprocess.PIPE, **more):
    """Gives the status and what is written to both outputs. The words are a list, or a text with a space between two; the input is bytes or a text;
    `more` stands in the environment."""
    words = words.split(" ") if isinstance(words, str) else words
    given = given if isinstance(given, bytes) else given.encode()
    done = subprocess.run([FED, *words], input=given, stdout=out, stderr=subprocess.PIPE, cwd=folder, timeout=PATIENCE, env={**ENVIRONMENT, **more})
    return done.returncode, (done.stdout or b"").decode(), done.stderr.decode()


class Rows:
    """Rows of a test: how many came out as they should. What differs is told at most so many characters long."""

    def __init__(self, test, most=1200):
        self.test, self.most, self.passed, self.failed = test, most, 0, 0

    def compare(self, row, got, wanted):
        if got == wanted:
            self.passed += 1
        else:
            self.failed += 1
            print(f"{self.test}: {row}: {got!r}, not {wanted!r}"[:self.most], file=sys.stderr)

    def end(self):
        """Says how many there were, and gives the test's status."""
        print(f"{self.test}: {self.passed} passed, {self.failed} failed")
        return 1 if self.failed else 0


def connected(server, port):
    """Connects to a server that was started and may not listen yet. Where it ends before it does, or is too long about it, this fails."""
    end = time.monotonic() + PATIENCE
    while True:
        try:
            return socket.create_connection(("127.0.0.1", port), timeout=PATIENCE)
        except ConnectionRefusedError:
            if time.monotonic() > end or server.poll() is not None:
                raise
            time.sleep(0.02)


def chosen(parser):
    """The words that a test was called with. It has the program that `--program` names, or the repository's own, built where it isn't yet."""
    parser.add_argument("--program")
    given = parser.parse_args()
    if given.program is None:
        subprocess.run([f"{TOP}/fed", "--version"], check=True, stdout=subprocess.DEVNULL)
        given.program = f"{TOP}/out/fed"
    given.program = os.path.abspath(given.program)
    return given


def ring(folder, name, number, begin=1700000000, end=1900000000):
    """Makes a ring file of one key whose seeds are a number, and gives the key that others see."""
    status, key, err = run(["keygen", "--ring", name, "--at", str(begin), "--exp", str(end)], f"{number:096x}", folder)
    if status != 0:
        raise RuntimeError(f"{name} isn't made: {key}{err}")
    os.chmod(f"{folder}/{name}", 0o600)
    return json.loads(key)
