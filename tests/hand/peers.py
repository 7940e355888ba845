#!/usr/bin/env python3
"""The real network over loopback, among peers that are slow, silent or gone. Its program is proved and built first, which wants minutes; the
rows want 40 seconds.

    tests/hand/peers.py             builds the program and tries it
    tests/hand/peers.py FOLDER      keeps the program in that folder: what an earlier run left there isn't built again

Each row starts a program of its own over `fed_net::RealNetwork`, as a server on 127.0.0.1 or as a client, and has its own bounds of time.
It prints what differs, and fails where anything does.
"""

import json
import os
import re
import shutil
import socket
import struct
import subprocess
import sys
import tempfile
import time

sys.dont_write_bytecode = True
sys.path.insert(0, f"{os.path.dirname(os.path.dirname(os.path.abspath(__file__)))}/lib")
import laid  # noqa: E402
from laid import free_port, tell  # noqa: E402

if {"-h", "--help"} & set(sys.argv[1:]):
    sys.exit(print(__doc__))

HEAD = b"GET /path?sub=https://rp.example HTTP/1.1\r\nHost: a\r\n\r\n"
MOMENT = r"\d{4}-\d\d-\d\dT\d\d:\d\d:\d\d\.\d{3}Z"
LINE = MOMENT + r" 127\.0\.0\.1:\d+ %s \d+\n"

PROGRAM = r'''//! Serves callers over TCP, or asks an address. The line of the input is `serve PORT CALLERS PIECES` or `ask PORT`.
#![tactic(auto)]

ghost use Rattle.std.specs.Prelude.{◌≡◌, ◌<◌, is_some, length, true};

use fed_net::{Log, RealNetwork};
use fed_ports::{Address, Network, Peer, listen_address};
use std::env;
use std::io;
use std::process::ExitCode;

// Reads a caller's head up to an empty line.
fn read_head<P: Peer>(peer: &mut P) -> &'static str {
    let mut last = [0u8; 4];
    let mut byte = [0u8; 1];
    for _ in 0..16384 {
        match peer.take(&mut byte) {
            Ok(0) => return "ended",
            Ok(_) => {}
            Err(_) => return "read fault",
        }
        last = [last[1], last[2], last[3], byte[0]];
        if last == *b"\r\n\r\n" {
            return "read";
        }
    }
    "too long"
}

// Reads a caller's head, and answers it by so many pieces.
fn serve<P: Peer>(peer: &mut P, piece: &[u8], pieces: u64) -> &'static str
    requires { 0 < length piece.now }
{
    let read = read_head(peer);
    if read != "read" {
        return read;
    }
    for _ in 0..pieces {
        if peer.give(piece).is_err() {
            return "write fault";
        }
    }
    "served"
}

fn serve_all<N: Network>(rt: &HostRuntime, net: &mut N, callers: u64, pieces: u64) -> io::Result<()>
    requires { is_some (N.port net.old) ≡ true }
{
    let mut piece = [b'x'; 4096];
    piece[..19].copy_from_slice(b"HTTP/1.1 200 OK\r\n\r\n");
    'callers: for _ in 0..callers {
        match net.accept() {
            Ok(mut peer) => {
                let word = serve(&mut peer, &piece, pieces);
                let _ = net.settle(rt.alloc(), peer);
                println!(rt; "{word}")?;
            }
            Err(_) => println!(rt; "no caller")?,
        }
    }
    Ok(())
}

fn receive_all<N: Network>(rt: &HostRuntime, net: &mut N) -> io::Result<()>
    requires { N.is_open net.old }
{
    let mut piece = [0u8; 64];
    'pieces: for _ in 0..100 {
        match net.receive(&mut piece) {
            Ok(0) => return println!(rt; "end"),
            Ok(n) => println!(rt; "{n}")?,
            Err(_) => return println!(rt; "receive fault"),
        }
    }
    Ok(())
}

fn ask<N: Network>(rt: &HostRuntime, net: &mut N, port: u16) -> io::Result<()> {
    let to = Address {
        ip: [127, 0, 0, 1],
        port,
    };
    if net.open(&to).is_err() {
        return println!(rt; "not opened");
    }
    if net.send(b"GET / HTTP/1.1\r\n\r\n").is_err() {
        return println!(rt; "not sent");
    }
    receive_all(rt, net)
}

fn number(word: &str) -> u64 {
    word.parse::<u64>().unwrap_or(0)
}

fn port(word: &str) -> u16 {
    word.parse::<u16>().unwrap_or(0)
}

fn run(rt: &HostRuntime, ip: [u8; 4], log: Log) -> io::Result<()> {
    for line in rt.lines(rt.alloc()) {
        let line = line?;
        let (word, rest) = line.as_str().split_once(' ').unwrap_or(("", ""));
        let (first, rest) = rest.split_once(' ').unwrap_or((rest, ""));
        let (callers, pieces) = rest.split_once(' ').unwrap_or(("", ""));
        if word == "serve" {
            let mut net = RealNetwork::new(rt, rt.alloc(), ip, log);
            if net.listen(port(first)).is_err() {
                return println!(rt; "no port");
            }
            println!(rt; "listens")?;
            serve_all(rt, &mut net, number(callers), number(pieces))?;
        } else {
            ask(rt, &mut RealNetwork::new(rt, rt.alloc(), ip, log), port(first))?;
        }
    }
    Ok(())
}

fn main(rt: HostRuntime) -> io::Result<ExitCode> {
    let log = match env::var(&rt, "FED_LOG") {
        Ok(word) => match word.as_str() {
            "off" => Log::Off,
            "json" => Log::Json,
            _ => Log::Lines,
        },
        Err(_) => Log::Lines,
    };
    let ip = match env::var(&rt, "FED_LISTEN") {
        Ok(word) => listen_address(word.as_bytes()),
        Err(_) => Some([127, 0, 0, 1]),
    };
    let Some(ip) = ip else {
        eprintln!(rt; "FED_LISTEN isn't an IPv4 address")?;
        return Ok(ExitCode::from(2));
    };
    run(&rt, ip, log)?;
    Ok(ExitCode::from(0))
}
'''

INVARIANT = """use Rattle.std.proofs.Common.{◌≡◌, true}
use Rattle.std.specs.Prelude.{is_some}
use Rattle.peers.proofs.%(name)s.Given as goal

abbrev pub invariant-%(loop)s : goal.invariant-%(loop)s
invariant-%(loop)s g l = %(so)s
"""
# what stays so in the program's loops, by the function
INVARIANTS = [("serve_all", "callers", "is_some (g.N.Network.port l.net) ≡ true"), ("receive_all", "pieces", "g.N.Network.is_open l.net")]
PROOFS = {f"proofs/{name}/Invariants.antt": INVARIANT % {"name": name, "loop": loop, "so": so} for name, loop, so in INVARIANTS}


class Server:
    """The program as a server of so many callers, each answered by so many pieces of 4,096 bytes."""

    def __init__(self, callers, pieces=1, **settings):
        self.port = free_port()
        self.program = subprocess.Popen([program], stdin=subprocess.PIPE, stdout=subprocess.PIPE, stderr=subprocess.PIPE, env={**os.environ, **settings})
        self.program.stdin.write(f"serve {self.port} {callers} {pieces}\n".encode())
        self.program.stdin.close()
        self.program.stdin = None
        said = self.program.stdout.readline()
        if said != b"listens\n":
            raise OSError(f"port {self.port}: {said!r}")

    def call(self, ip="127.0.0.1"):
        return socket.create_connection((ip, self.port), timeout=60)

    def ask(self, head=HEAD):
        """Sends a head and gives all that comes."""
        with self.call() as peer:
            peer.sendall(head)
            got = b""
            while piece := peer.recv(65536):
                got += piece
            return got

    def ends(self, what, words, log):
        """The program has written these words and such a log, and ends with status 0."""
        out, err = self.program.communicate(timeout=60)
        tell(f"{what}: wrote {out!r}, status {self.program.returncode}", out.decode().split("\n")[:-1] == words and self.program.returncode == 0)
        tell(f"{what}: the log is {err!r}", re.fullmatch(log, err.decode()) is not None)


def shows(*rows):
    return "".join(LINE % row for row in rows)


SERVED = r"GET /path 200 4096"


def ordinary():
    server = Server(1)
    tell("ordinary: another answer", len(server.ask()) == 4096)
    server.ends("ordinary", ["served"], shows(SERVED))


def control_bytes():
    server = Server(1)
    server.ask(b"GET /\x1b[31m\x07\xff HTTP/1.1\r\nHost: a\r\n\r\n")
    server.ends("control bytes", ["served"], shows(r"GET /\*\[31m\*\* 200 4096"))


def quiet():
    server = Server(1, FED_LOG="off")
    server.ask()
    server.ends("no log", ["served"], "")


def objects():
    """The log in JSON, with a dash as `null` and what stands there as it was sent."""
    server = Server(2, FED_LOG="json")
    server.ask(b"GET /a\"b\\c\x07?sub=https://rp.example HTTP/1.1\r\nHost: a\r\n\r\n")
    with server.call() as peer:
        peer.shutdown(socket.SHUT_WR)
        peer.recv(1)
    _, err = server.program.communicate(timeout=60)
    lines = [json.loads(line) for line in err.decode().splitlines()]
    tell(f"objects: {err!r}", all(re.fullmatch(MOMENT, it.pop("time")) and it.pop("peer").startswith("127.0.0.1:") and it.pop("ms") < 60000 for it in lines))
    wanted = [{"method": "GET", "path": '/a"b\\c*', "status": 200, "bytes": 4096}, {"method": None, "path": None, "status": None, "bytes": 0}]
    tell(f"objects: {lines}", lines == wanted)


def resolving():
    """Of what resolves, the entity that was asked for."""
    for form, told in (("sub=https%3A%2F%2Frp.example&trust_anchor=x", "https://rp.example"), ("trust_anchor=x&sub=https://a/%22%5c%0a+b", "https://a/****b"),
                       ("sub=%4", "%4"), ("trust_anchor=x", "-")):
        server = Server(1)
        server.ask(f"GET /fed/resolve?{form} HTTP/1.1\r\nHost: a\r\n\r\n".encode())
        server.ends(f"resolving {form}", ["served"], MOMENT + r" 127\.0\.0\.1:\d+ GET /fed/resolve 200 4096 \d+ " + re.escape(told) + "\n")


def own_time():
    """The milliseconds of an answer are its own, however late its caller is settled."""
    server = Server(1)
    server.ask()
    _, err = server.program.communicate(timeout=60)
    tell(f"its own time: {err!r}", int(err.split()[-1]) < 1000)


def silent():
    server = Server(2)
    with server.call() as peer:
        start = time.monotonic()
        got = peer.recv(1)
        spent = time.monotonic() - start
    tell(f"silent: {got!r} after {spent:.1f} s", got == b"" and 9.5 < spent < 12)
    server.ask()
    server.ends("silent", ["read fault", "served"], shows("- - - 0", SERVED))


def slow():
    server = Server(2)
    with server.call() as peer:
        start = time.monotonic()
        peer.settimeout(3)
        try:
            for at in range(20):
                peer.sendall(HEAD[at : at + 1])
                try:
                    if not peer.recv(1):
                        break
                except socket.timeout:
                    pass
        except OSError:
            pass
        spent = time.monotonic() - start
    tell(f"slow: ended after {spent:.1f} s", 4.5 < spent < 9)
    server.ask()
    server.ends("slow", ["read fault", "served"], shows(r"GET /\S* - 0", SERVED))


def behind_others():
    server = Server(61)
    others = [server.call() for _ in range(60)]
    for number, it in enumerate(others):
        if number % 6 == 0:
            it.sendall(HEAD[:8])
    time.sleep(0.3)
    start = time.monotonic()
    server.ask()
    spent = time.monotonic() - start
    tell(f"behind 50 silent and 10 slow callers: {spent:.3f} s", spent < 0.2)
    server.ends("behind others", ["served"] + ["read fault"] * 60, shows(SERVED, *[r"GET /pat - 0"] * 10, *["- - - 0"] * 50))
    for it in others:
        it.close()


def in_their_order():
    server = Server(2)
    with server.call() as first, server.call() as second:
        second.sendall(HEAD)
        tell("who speaks first is served first", second.recv(65536)[:12] == b"HTTP/1.1 200")
        first.sendall(HEAD)
        tell("and then who came before", first.recv(65536)[:12] == b"HTTP/1.1 200")
    server.ends("in their order", ["served"] * 2, shows(SERVED, SERVED))


def not_taking():
    server = Server(1, pieces=20000)
    with server.call() as peer:
        peer.setsockopt(socket.SOL_SOCKET, socket.SO_RCVBUF, 4096)
        start = time.monotonic()
        peer.sendall(HEAD)
        out, err = server.program.communicate(timeout=60)
        spent = time.monotonic() - start
    tell(f"not taking: {out!r} after {spent:.1f} s", out == b"write fault\n" and 29 < spent < 34)
    tell(f"not taking: the log is {err!r}", re.fullmatch(shows(r"GET /path 200 \d+"), err.decode()) is not None)


def reset():
    server = Server(3, pieces=20000)
    for sent in (HEAD[:20], HEAD):
        peer = server.call()
        peer.setsockopt(socket.SOL_SOCKET, socket.SO_LINGER, struct.pack("ii", 1, 0))
        peer.sendall(sent)
        time.sleep(0.3)
        peer.close()
    with server.call() as peer:
        peer.shutdown(socket.SHUT_WR)
        tell("reset: something came", peer.recv(1) == b"")
    server.ends("reset", ["read fault", "write fault", "ended"], shows(r"GET /path - 0", r"GET /path 200 \d+", "- - - 0"))


def listens_elsewhere():
    server = Server(1, FED_LISTEN="127.0.0.2")
    try:
        server.call().close()
        tell("another address: 127.0.0.1 answers", False)
    except OSError:
        tell("another address", True)
    with server.call("127.0.0.2") as peer:
        peer.sendall(HEAD)
        tell("another address: no answer", peer.recv(1) == b"H")
    server.program.communicate(timeout=60)
    for text in ("127.0.0.01", "localhost", "", "1.2.3.4.5", "256.0.0.1"):
        done = subprocess.run([program], stdin=subprocess.DEVNULL, capture_output=True, env={**os.environ, "FED_LISTEN": text}, timeout=10)
        tell(f"FED_LISTEN={text}: {done}", done.returncode == 2 and done.stderr == b"FED_LISTEN isn't an IPv4 address\n")


def asked(port):
    """The program as a client of that port: what it wrote, and after how many seconds."""
    start = time.monotonic()
    done = subprocess.run([program], input=f"ask {port}\n".encode(), capture_output=True, timeout=60)
    return done.stdout.decode(), time.monotonic() - start


def client():
    got, spent = asked(free_port())
    tell(f"client, nobody listens: {got!r} after {spent:.1f} s", got == "not opened\n" and spent < 1)
    with socket.socket() as it:
        it.bind(("127.0.0.1", 0))
        it.listen(1)
        got, spent = asked(it.getsockname()[1])
        tell(f"client, a silent server: {got!r} after {spent:.1f} s", got == "receive fault\n" and 9.5 < spent < 12)


def full_queue():
    with socket.socket() as it:
        it.bind(("127.0.0.1", 0))
        it.listen(0)
        waiting = []
        for _ in range(8):
            one = socket.socket()
            one.setblocking(False)
            one.connect_ex(it.getsockname())
            waiting.append(one)
        time.sleep(0.2)
        got, spent = asked(it.getsockname()[1])
        tell(f"client, a full queue: {got!r} after {spent:.1f} s", got == "not opened\n" and 2.5 < spent < 4)
        for one in waiting:
            one.close()


folder = sys.argv[1] if len(sys.argv) > 1 else tempfile.mkdtemp()
program = laid.built(folder, "peers", PROGRAM, ["fed_base", "fed_ports", "utc_dates", "plain_notes", "network_notes", "waiting_callers", "fed_net"], PROOFS)
rows = [ordinary, control_bytes, quiet, objects, resolving, own_time, silent, slow, behind_others, in_their_order, not_taking, reset, listens_elsewhere, client, full_queue]
status = laid.tried("peers", rows)
if len(sys.argv) < 2:
    shutil.rmtree(folder)
sys.exit(status)
