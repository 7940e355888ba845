"""Trials of a small program over this repository's crates that isn't one of them, since what it does varies from run to run."""

import os
import random
import re
import shutil
import socket
import subprocess
import sys
import tempfile
import threading

TOP = os.path.dirname(os.path.dirname(os.path.dirname(os.path.abspath(__file__))))
passed, faults = 0, []
lock = threading.Lock()
given = set()
# the servers of rows: what still runs once all rows are over, as where one failed, is ended
started = []


def stands_on(name):
    """Gives the line of crates.txt of that crate."""
    with open(f"{TOP}/crates.txt", encoding="utf-8") as it:
        return next(line for line in it.read().split("\n") if line.startswith(f"{name}:"))


def built(folder, name, program, crates, proofs):
    """Proves and builds a program over these crates, lowest first, in a repository of its own, and gives the path where it is kept. What an
    earlier run left in the folder isn't built again. `proofs` has the text of each file of proofs by its path."""
    kept = f"{folder}/{name}"
    if os.path.exists(kept):
        return kept
    with tempfile.TemporaryDirectory() as place:
        for crate in crates:
            for part in ("src", "specs", "proofs"):
                shutil.copytree(f"{TOP}/crates/{crate}/{part}", f"{place}/crates/{crate}/{part}")
        own = f"{place}/crates/{name}"
        texts = {"src/main.rt": program, "specs/Lib.antt": "", "proofs/Lib.antt": "", **proofs}
        for path, text in texts.items():
            os.makedirs(os.path.dirname(f"{own}/{path}"), exist_ok=True)
            with open(f"{own}/{path}", "w", encoding="utf-8") as it:
                it.write(text)
        shutil.copy(f"{TOP}/HANDLES", place)
        with open(f"{place}/crates.txt", "w", encoding="utf-8") as it:
            it.write("\n".join([*map(stands_on, crates), f"{name}: {' '.join(sorted(crates))}", ""]))
        subprocess.run(["git", "init", "-q", place], check=True)
        done = subprocess.run(["rt", "run"], cwd=own, stdin=subprocess.DEVNULL, capture_output=True, text=True)
        if done.returncode:
            said = [it for it in (done.stdout + done.stderr).split("\n") if re.search("error|not proved|no proof|did not prove", it)]
            sys.exit("\n".join([f"{name}: the program isn't built", *said]))
        os.makedirs(folder, exist_ok=True)
        shutil.copy(f"{own}/out/{name}", kept)
    return kept


def tell(what, so):
    """Counts a row, and prints what differs."""
    global passed
    with lock:
        if so:
            passed += 1
        else:
            faults.append(what)
            print(what, file=sys.stderr)


def free_port():
    """Gives a port on which nobody listens, and that no other row was given. It is below those that Linux gives outgoing connections, so that
    no connection of another row takes it before a server listens there. Whoever listens there sets SO_REUSEADDR, as is done here: a program
    that another row starts meanwhile holds this socket a moment longer."""
    while True:
        port = random.randrange(20000, 32768)
        with lock:
            if port in given:
                continue
            given.add(port)
        if is_free(port, True):
            return port


def is_free(port, closing=False):
    """Whether nobody listens on the port, and no connection of it stands. One that is closing doesn't count where that is said."""
    with socket.socket() as it:
        if closing:
            it.setsockopt(socket.SOL_SOCKET, socket.SO_REUSEADDR, 1)
        try:
            it.bind(("127.0.0.1", port))
        except OSError:
            return False
    return True


def guarded(row):
    try:
        row()
    except Exception as error:
        tell(f"{row.__name__}: {error!r}", False)


def tried(name, rows):
    """Tries the rows side by side, prints how many passed, and gives the status to end with."""
    threads = [threading.Thread(target=guarded, args=(row,)) for row in rows]
    for thread in threads:
        thread.start()
    for thread in threads:
        thread.join()
    for running in started:
        if running.poll() is None:
            running.kill()
            running.wait()
    print(f"{name}: {passed} passed, {len(faults)} failed")
    return 1 if faults else 0


class Host:
    """Takes connections on a port of loopback, each in a thread of its own, reads the head of what is asked, and does with both what it is made
    for. Its port is free again behind it."""

    def __init__(self, serve, patience=300):
        self.over = threading.Event()
        self.serve, self.patience = serve, patience
        self.port = free_port()
        self.listener = socket.socket()
        self.listener.setsockopt(socket.SOL_SOCKET, socket.SO_REUSEADDR, 1)
        self.listener.bind(("127.0.0.1", self.port))
        self.listener.listen(64)
        threading.Thread(target=self.accept, daemon=True).start()

    def __enter__(self):
        return self

    def __exit__(self, *_):
        self.over.set()
        self.listener.shutdown(socket.SHUT_RDWR)
        self.listener.close()

    def accept(self):
        try:
            while True:
                peer = self.listener.accept()[0]
                threading.Thread(target=self.handle, args=(peer,), daemon=True).start()
        except OSError:
            return

    def handle(self, peer):
        try:
            peer.settimeout(self.patience)
            asked = b""
            while b"\r\n\r\n" not in asked and (more := peer.recv(65536)):
                asked += more
            self.serve(self, peer, asked)
        except OSError:
            pass                                         # the other side may leave early; what it tells is looked at
        finally:
            peer.close()
