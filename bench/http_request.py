#!/usr/bin/env python3
"""What a request and its response of 12,288 bytes cost over loopback, beside nginx in the same run, and how many instructions it takes to
read messages of 1 KB, 16 KB and 256 KB.

    bench/http_request.py [COUNT [FOLDER]]    COUNT requests in a round (2000); the program is kept in the folder, and else built anew in minutes

The processor time is that of the server's process, user and system together, by the system's scheduler: the least of seven rounds, in which
the two take turns. One client asks, a connection for each request. nginx serves a file by one process, and closes each connection too;
where it is missing, the program is measured alone. Then both keep their connections, for 100 requests each. Neither writes a log, and then
each writes a line for a request. Instructions are counted by valgrind, and not where that is missing: the difference of a run that reads a
message eleven times and one that reads it once, by ten. So are those of serving a stream of 100 requests, in one piece and by single bytes,
beside those of serving one of one.
"""

import os
import re
import shutil
import socket
import subprocess
import sys
import tempfile
import time

if {"-h", "--help"} & set(sys.argv[1:]):
    sys.exit(print(__doc__))

TOP = os.path.dirname(os.path.dirname(os.path.abspath(__file__)))
ROUNDS = 7
BODY = 12288
ASKED = b"GET /page HTTP/1.1\r\nHost: a.example\r\n\r\n"
# the requests of a connection that is kept
KEPT = 100
# more callers than come
CALLERS = 1 << 40
KINDS = [("a request, in pieces of 4,096 bytes", "request", 4096), ("a request, in pieces of 16 bytes", "request", 16)]
KINDS += [("a page, by its length", "page", 0), ("a page, in chunks of 4,096 bytes", "page", 4096), ("a page, in chunks of 16 bytes", "page", 16)]
SIZES = [1024, 16384, 262144]


def free_port():
    with socket.socket() as it:
        it.bind(("127.0.0.1", 0))
        return it.getsockname()[1]


def ask(port):
    """One request, and how many bytes came."""
    with socket.create_connection(("127.0.0.1", port), timeout=20) as it:
        it.sendall(ASKED)
        got = 0
        while piece := it.recv(65536):
            got += len(piece)
        return got


def answer_on(it):
    """Takes one response off a connection that is kept."""
    got = b""
    while b"\r\n\r\n" not in got:
        piece = it.recv(65536)
        if not piece:
            raise OSError("the connection ended")
        got += piece
    head, _, body = got.partition(b"\r\n\r\n")
    left = int(re.search(rb"Content-Length: (\d+)", head)[1]) - len(body)
    while left > 0:
        piece = it.recv(65536)
        if not piece:
            raise OSError("the connection ended")
        left -= len(piece)


def ask_kept(port, count):
    """So many requests over connections that are kept, each for 100."""
    while count > 0:
        with socket.create_connection(("127.0.0.1", port), timeout=20) as it:
            it.setsockopt(socket.IPPROTO_TCP, socket.TCP_NODELAY, 1)
            for _ in range(min(count, KEPT)):
                it.sendall(ASKED)
                answer_on(it)
        count -= KEPT


class Server:
    """A server's process, on a port of its own, whose connections are kept or aren't."""

    def __init__(self, name, words, port, log, given=None, kept=False):
        self.name, self.port, self.kept = name, port, kept
        self.least = None
        env = {**os.environ, "FED_LOG": "on" if log else "off"}
        where = open(log or os.devnull, "w", encoding="utf-8")
        self.process = subprocess.Popen(words, stdin=subprocess.PIPE, stdout=subprocess.DEVNULL, stderr=where, env=env)
        where.close()
        try:
            if given:
                self.process.stdin.write(given)
            self.process.stdin.close()
            self.awaited()
        except BaseException:
            self.end()
            raise

    def awaited(self):
        """Waits until the server listens."""
        for _ in range(200):
            try:
                if self.kept:
                    ask_kept(self.port, 1)
                elif ask(self.port) < BODY:
                    sys.exit(f"http: {self.name} gives another page")
                return
            except OSError:
                time.sleep(0.05)
        sys.exit(f"http: {self.name} doesn't listen")

    def spent(self):
        """The processor time of the process, in nanoseconds."""
        with open(f"/proc/{self.process.pid}/schedstat", encoding="utf-8") as it:
            return int(it.read().split()[0])

    def shares(self):
        """The ticks of the process in user code and in the system."""
        with open(f"/proc/{self.process.pid}/stat", encoding="utf-8") as it:
            return [int(it) for it in it.read().rsplit(")", 1)[1].split()[11:13]]

    def round(self, count):
        before = self.spent()
        if self.kept:
            ask_kept(self.port, count)
        else:
            for _ in range(count):
                ask(self.port)
        took = (self.spent() - before) / count / 1000
        self.least = min(took, self.least or took)

    def end(self):
        self.process.kill()
        self.process.wait()


def nginx(place, log, kept):
    """nginx with a configuration of its own, or None where there is none."""
    found = shutil.which("nginx", path=os.environ.get("PATH", "") + ":/usr/sbin:/usr/local/sbin")
    if not found:
        return None
    port = free_port()
    with open(f"{place}/page", "wb") as it:
        it.write(b"x" * BODY)
    conf = f"{place}/{port}.conf"
    with open(conf, "w", encoding="utf-8") as it:
        it.write(f"""daemon off; master_process off; worker_processes 1; pid {place}/{port}.pid; error_log stderr crit;
events {{ worker_connections 64; }}
http {{
    access_log {log or "off"};
    sendfile on; tcp_nopush on; keepalive_timeout {10 if kept else 0}; keepalive_requests {KEPT}; default_type application/json;
    client_body_temp_path {place}/body; proxy_temp_path {place}/proxy; fastcgi_temp_path {place}/fastcgi;
    uwsgi_temp_path {place}/uwsgi; scgi_temp_path {place}/scgi;
    server {{ listen 127.0.0.1:{port}; root {place}; }}
}}
""")
    return Server("nginx", [found, "-p", place, "-c", conf], port, None, kept=kept)


def measured(place, program, log, count, kept):
    """The servers, after their rounds."""
    port = free_port()
    words = f"{'stream' if kept else 'serve'} {port} {CALLERS} {BODY}\n".encode()
    servers = [Server("http_stream" if kept else "http_plain", [program], port, log and f"{place}/own.log", words, kept)]
    try:
        beside = nginx(place, log and f"{place}/nginx.log", kept)
        if beside:
            servers.append(beside)
        for _ in range(ROUNDS):
            for server in servers:
                server.round(count)
        for server in servers:
            user, system = server.shares()
            server.user = 100 * user / max(1, user + system)
    finally:
        for server in servers:
            server.end()
    return servers


def instructions(program, line):
    """The instructions of a run on that line."""
    words = ["valgrind", "--tool=callgrind", "--callgrind-out-file=/dev/null", program]
    done = subprocess.run(words, input=line.encode(), capture_output=True, timeout=600, check=True)
    if done.stdout.decode() != line.split()[-1] + "\n":
        sys.exit(f"http: {line} reads {done.stdout}")
    return int(re.search(r"Collected : (\d+)", done.stderr.decode())[1])


def of_processor(word):
    with open("/proc/cpuinfo", encoding="utf-8") as it:
        found = re.search(rf"^{word}\s*: (.*)$", it.read(), re.M)
    return found[1] if found else "-"


def main():
    count = int(sys.argv[1]) if len(sys.argv) > 1 else 2000
    with tempfile.TemporaryDirectory() as place:
        folder = sys.argv[2] if len(sys.argv) > 2 else place
        subprocess.run([f"{TOP}/tests/hand/web.py", "--build", folder], check=True)
        program = os.path.abspath(f"{folder}/web")
        load = " ".join(f"{it:.1f}" for it in os.getloadavg())
        print(f"processor: {of_processor('model name')}, family {of_processor('cpu family')}, model {of_processor('model')}; load {load}")
        closed = None
        for log, kept in ((False, False), (True, False), (False, True)):
            servers = measured(place, program, log, count, kept)
            if len(servers) == 1 and not log and not kept:
                print("there is no nginx here, so nothing stands beside")
            if not log and not kept:
                closed = servers[0].least
            if kept:
                print(f"a request on a connection that is kept takes {servers[0].least / closed:.2f} of one on its own")
            for server in servers:
                word = "a line in the log" if log else "no log"
                ratio = f"{servers[0].least / server.least:6.2f} of it" if server is not servers[0] else ""
                print(f"{server.name:11} {word:17} {server.least:7.1f} us a request, {server.user:3.0f} in 100 in user code {ratio}")
        if not shutil.which("valgrind"):
            print("there is no valgrind here, so no instructions are counted")
            return
        for what, word, piece in KINDS:
            counts = [(instructions(program, f"{word} {size} {piece} 11") - instructions(program, f"{word} {size} {piece} 1")) / 10 for size in SIZES]
            steps = [(counts[at + 1] - counts[at]) / (SIZES[at + 1] - SIZES[at]) for at in range(2)]
            shown = " ".join(f"{it:11.0f}" for it in counts)
            print(f"{what:36} {shown}; a byte more takes {steps[0]:5.1f}, then {steps[1]:5.1f}")
        one = (instructions(program, "asks 1 4096 11") - instructions(program, "asks 1 4096 1")) / 10
        for what, piece in (("in one piece", 4096), ("by single bytes", 1)):
            many = (instructions(program, f"asks {KEPT} {piece} 11") - instructions(program, f"asks {KEPT} {piece} 1")) / 10
            print(f"a stream of {KEPT} requests, {what:15} {many:11.0f}, which is {many / KEPT / one:.2f} of as many streams of one")


main()
