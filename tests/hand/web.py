#!/usr/bin/env python3
"""Requests by curl, answered over the real network by `http_plain`, and pages that Python's `http.server` serves, got by its `HttpLink`.
The program is proved and built first, which wants minutes where nothing of it is kept; the rows want some seconds.

    tests/hand/web.py                   builds the program and tries it
    tests/hand/web.py FOLDER            keeps the program in that folder: what an earlier run left there isn't built again
    tests/hand/web.py --build FOLDER    builds it there and tries nothing

All of it goes over 127.0.0.1. Where curl is missing its rows are passed over. It prints what differs, and fails where anything does.
"""

import http.server
import os
import re
import shutil
import subprocess
import sys
import tempfile
import threading

sys.dont_write_bytecode = True
sys.path.insert(0, f"{os.path.dirname(os.path.dirname(os.path.abspath(__file__)))}/lib")
import laid  # noqa: E402
from laid import free_port, tell  # noqa: E402

if {"-h", "--help"} & set(sys.argv[1:]):
    sys.exit(print(__doc__))

# how many seconds a program or a call may take
MOST = 60

PROGRAM = r'''//! Serves callers over TCP, gets a page over TCP, or reads messages that are in memory. The line of the input is one of
//!
//! - `serve PORT CALLERS BYTES`: so many callers, each told its request, or so many bytes where it asks for `/page`
//! - `stream PORT CALLERS BYTES`: the same, on connections that go on for up to 100 requests
//! - `get PORT HOST URL`: the page of that URL, whose host that port of 127.0.0.1 serves
//! - `request BYTES PIECE TIMES`: a request with a body of so many bytes, in pieces of so many, read so often
//! - `asks COUNT PIECE TIMES`: a stream of so many requests, in pieces of so many bytes, served so often
//! - `page BYTES CHUNK TIMES`: a page of so many bytes, in chunks of so many or, for 0, by its length, read so often
#![tactic(auto)]

ghost use Rattle.std.specs.Prelude.{◌≡◌, Some, [], drop, IfOk, is_some, true};
ghost use Rattle.std.proofs.Common.{refl};
ghost use Rattle.http_plain.specs.Responses.{HasReason};

use fed_base::{Duplicate, Failed, Memory, Seq, Text};
use fed_net::{Log, MemoryNetwork, RealNetwork};
use fed_ports::{Address, Link, LinkFault, MemorySink, Network, Page, Peer, Sink, Source};
use http_plain::{
    HttpLink, Incoming, Media, Method, ReadEnd, Request, Response, Route, read_request,
    write_response,
};
use http_stream::{Answerer, StreamFault, serve_stream};
use std::alloc::Global;
use std::{env, io};

// The text of a request: its method and path, a line for each pair, an empty line and the body.
fn told(alloc: Global, request: &Request) -> Result<Text, Memory> {
    let mut out = Text::new(alloc);
    out.append(match request.method {
        Method::Get => b"GET ",
        Method::Post => b"POST ",
    })?;
    out.append(request.path.as_slice())?;
    for pair in request.pairs.as_slice() {
        out.push(b'\n')?;
        out.append(pair.name.as_slice())?;
        out.push(b'=')?;
        out.append(pair.value.as_slice())?;
    }
    out.append(b"\n\n")?;
    out.append(request.body.as_slice())?;
    Ok(out)
}

// What is answered to a caller.
fn response(alloc: Global, incoming: &Incoming, page: &[u8]) -> Result<Response, Memory>
    ensures { IfOk result (λ r. HasReason r.status) }
{
    match incoming {
        Incoming::Asked(request) => {
            let body = if request.path.as_slice() == b"/page".as_slice() {
                Text::of(alloc, page)?
            } else {
                told(alloc, request)?
            };
            Ok(Response {
                status: 200,
                media: Media::Json,
                body,
            })
        }
        Incoming::NotARequest => Ok(Response {
            status: 400,
            media: Media::Json,
            body: Text::of(alloc, b"no request")?,
        }),
    }
}

// Answers a caller, or says why it isn't answered.
fn serve<P: Peer>(alloc: Global, peer: &mut P, page: &[u8]) -> &'static str {
    let incoming = match read_request(alloc, peer) {
        Ok(incoming) => incoming,
        Err(ReadEnd::ReadFault) => return "read fault",
        Err(ReadEnd::Ended) => return "ended",
        Err(ReadEnd::Memory) => return "memory",
    };
    let Ok(answer) = response(alloc, &incoming, page) else {
        return "memory";
    };
    match write_response(alloc, peer, &answer) {
        Ok(()) => "",
        Err(_) => "write fault",
    }
}

// What answers on a connection that goes on.
#[derive(Drop)]
struct Answering<'a> {
    page: &'a [u8],
}

impl<'a> Answerer for Answering<'a> {
    ghost state = { Unit {0} };

    ghost at = { λ _. tt };

    ghost ready = { λ _. Unit {0} };

    ghost step = { λ _ _ _ _. Unit {0} };

    ghost gives_up = { λ _ _ _. Unit {0} };

    fn answer(&mut self, alloc: Global, asked: &Incoming) -> Result<Response, Memory> {
        response(alloc, asked, self.page)
    }
}

// Answers a caller's requests, or says why one isn't answered.
fn serve_each<P: Peer>(alloc: Global, peer: &mut P, page: &[u8]) -> &'static str {
    match serve_stream(alloc, peer, &mut Answering { page }, 100) {
        Ok(_) => "",
        Err(StreamFault::ReadFault) => "read fault",
        Err(StreamFault::WriteFault) => "write fault",
        Err(StreamFault::Ended) => "ended",
        Err(StreamFault::Memory) => "memory",
    }
}

fn serve_all<N: Network>(
    rt: &HostRuntime,
    net: &mut N,
    callers: u64,
    page: &[u8],
    streams: bool,
) -> io::Result<()>
    requires { is_some (N.port net.old) ≡ true }
{
    'callers: for _ in 0..callers {
        match net.accept() {
            Ok(mut peer) => {
                let word = if streams {
                    serve_each(rt.alloc(), &mut peer, page)
                } else {
                    serve(rt.alloc(), &mut peer, page)
                };
                let _ = net.settle(rt.alloc(), peer);
                if !word.is_empty() {
                    println!(rt; "{word}")?;
                }
            }
            Err(_) => println!(rt; "no caller")?,
        }
    }
    Ok(())
}

// So many bytes.
fn filled(alloc: Global, size: u64) -> Result<Text, Memory> {
    let mut out = Text::new(alloc);
    for _ in 0..size {
        out.push(b'x')?;
    }
    Ok(out)
}

// A link over a network with one route.
fn link_of<N: Network + Drop>(
    alloc: Global,
    net: N,
    host: &str,
    port: u16,
) -> Result<HttpLink<N>, Memory> {
    let mut routes = Seq::new(alloc);
    let to = Address {
        ip: [127, 0, 0, 1],
        port,
    };
    let host = Text::of(alloc, host.as_bytes())?;
    routes.push(Route { host, to })?;
    Ok(HttpLink::new(net, routes))
}

// Writes the kind of a page and then its bytes.
fn show(rt: &HostRuntime, answer: Result<Page, LinkFault>) -> io::Result<()> {
    match answer {
        Ok(Page::Document(body)) => match std::str::from_utf8(body.as_slice()) {
            Ok(body) => println!(rt; "Document\n{body}"),
            Err(_) => println!(rt; "Document of other bytes"),
        },
        Ok(Page::Refusal(status)) => println!(rt; "Refusal {status}"),
        Ok(Page::Garbled) => println!(rt; "Garbled"),
        Ok(Page::TooLong) => println!(rt; "TooLong"),
        Ok(Page::NoRoute) => println!(rt; "NoRoute"),
        Err(LinkFault::Failed) => println!(rt; "Failed"),
        Err(LinkFault::Memory) => println!(rt; "memory"),
    }
}

fn get<N: Network + Drop>(
    rt: &HostRuntime,
    net: N,
    port: u16,
    host: &str,
    url: &str,
) -> io::Result<()> {
    let alloc = rt.alloc();
    let Ok(url) = Text::of(alloc, url.as_bytes()) else {
        return println!(rt; "memory");
    };
    let Ok(mut link) = link_of(alloc, net, host, port) else {
        return println!(rt; "memory");
    };
    let answer = link.get(alloc, &url);
    show(rt, answer)
}

// A source of given bytes, of which each call gives at most so many.
#[derive(Drop)]
struct Pieces {
    bytes: Vec<u8>,
    taken: usize,
    most: usize,
}

impl Source for Pieces {
    ghost left = { λ source. Some (drop source.taken source.bytes.items) };

    ghost source_side = { λ _. (Some [], 0) };

    ghost read_faults = { λ _. 0 };

    fn take(&mut self, into: &mut [u8]) -> Result<usize, Failed> {
        let rest = self.bytes.get(self.taken..).unwrap_or(&[]);
        let n = rest.len().min(into.len()).min(self.most.max(1));
        into[..n].copy_from_slice(&rest[..n]);
        self.taken += n;
        Ok(n)
    }
}

// Reads a request with a body of so many bytes, so often.
fn requests(alloc: Global, size: u64, piece: u64, times: u64) -> Result<u64, Memory> {
    let mut text = Text::new(alloc);
    let Ok(head) = format!(in alloc;
        "POST /path HTTP/1.1\r\nHost: a\r\nContent-Length: {size}\r\n\r\n"
    ) else {
        return Err(Memory);
    };
    text.append(head.as_bytes())?;
    text.append(filled(alloc, size)?.as_slice())?;
    let mut read = 0;
    for _ in 0..times {
        let mut source = Pieces {
            bytes: text.copy(alloc)?.into_vec()?,
            taken: 0,
            most: piece as usize,
        };
        if let Ok(Incoming::Asked(request)) = read_request(alloc, &mut source) {
            if request.body.len() as u64 == size {
                read = u64::saturating_add(read, 1);
            }
        }
    }
    Ok(read)
}

// A caller whose bytes come so, and that keeps what it is given.
#[derive(Drop)]
struct Caller {
    source: Pieces,
    sink: MemorySink,
}

impl Source for Caller {
    ghost use Rattle.std.specs.Prelude.{Some, drop};
    ghost use Rattle.fed_ports.specs.MemoryStreams.{sink_faults, sink_held};

    ghost left = { λ peer. Some (drop peer.source.taken peer.source.bytes.items) };

    ghost source_side = { λ peer. (Some (sink_held peer.sink), sink_faults peer.sink) };

    ghost read_faults = { λ _. 0 };

    fn take(&mut self, into: &mut [u8]) -> Result<usize, Failed> {
        self.source.take(into)
    }
}

impl Sink for Caller {
    ghost use Rattle.std.specs.Prelude.{Some, drop};
    ghost use Rattle.fed_ports.specs.MemoryStreams.{sink_faults, sink_held};

    ghost held = { λ peer. Some (sink_held peer.sink) };

    ghost sink_side = { λ peer. (Some (drop peer.source.taken peer.source.bytes.items), 0) };

    ghost write_faults = { λ peer. sink_faults peer.sink };

    fn give(&mut self, piece: &[u8]) -> Result<usize, Failed> {
        self.sink.give(piece)
    }
}

impl Peer for Caller {
    ghost source_side_is = { λ peer. refl };

    ghost sink_side_is = { λ peer. refl };
}

// Serves a stream of so many requests, so often.
fn asks(alloc: Global, count: u64, piece: u64, times: u64) -> Result<u64, Memory> {
    let mut text = Text::new(alloc);
    for _ in 0..count {
        text.append(b"GET /page HTTP/1.1\r\nHost: a.example\r\n\r\n")?;
    }
    let mut served = 0;
    for _ in 0..times {
        let source = Pieces {
            bytes: text.copy(alloc)?.into_vec()?,
            taken: 0,
            most: piece as usize,
        };
        let sink = MemorySink::new(alloc, 100_000, &[], 1000)?;
        let mut caller = Caller { source, sink };
        if let Ok(answered) = serve_stream(alloc, &mut caller, &mut Answering { page: b"x" }, 100) {
            if answered == count {
                served = u64::saturating_add(served, 1);
            }
        }
    }
    Ok(served)
}

// Adds a chunk of so many bytes.
fn add_chunk(alloc: Global, out: &mut Text, bytes: &[u8]) -> Result<(), Memory> {
    let size = bytes.len();
    let Ok(head) = format!(in alloc; "{size:x}\r\n") else {
        return Err(Memory);
    };
    out.append(head.as_bytes())?;
    out.append(bytes)?;
    out.append(b"\r\n")
}

// An answer whose page has so many bytes, in chunks of so many or by its length.
fn answer_of(alloc: Global, size: u64, chunk: u64) -> Result<Text, Memory> {
    let mut out = Text::new(alloc);
    let body = filled(alloc, size)?;
    if chunk == 0 {
        let Ok(head) = format!(in alloc; "HTTP/1.1 200 OK\r\nContent-Length: {size}\r\n\r\n") else {
            return Err(Memory);
        };
        out.append(head.as_bytes())?;
        out.append(body.as_slice())?;
        return Ok(out);
    }
    out.append(b"HTTP/1.1 200 OK\r\nTransfer-Encoding: chunked\r\n\r\n")?;
    for part in body.as_slice().chunks(chunk as usize) {
        add_chunk(alloc, &mut out, part)?;
    }
    add_chunk(alloc, &mut out, b"")?;
    Ok(out)
}

// Gets a page of so many bytes, so often.
fn pages(alloc: Global, size: u64, chunk: u64, times: u64) -> Result<u64, Memory> {
    let answer = answer_of(alloc, size, chunk)?;
    let url = Text::of(alloc, b"http://a.example/page")?;
    let mut read = 0;
    for _ in 0..times {
        let mut answers = Seq::new(alloc);
        answers.push(answer.copy(alloc)?)?;
        let net = MemoryNetwork::new(alloc, answers, Seq::new(alloc), 1000, &[], 1000)?;
        let mut link = link_of(alloc, net, "a.example", 80)?;
        if let Ok(Page::Document(body)) = link.get(alloc, &url) {
            if body.len() as u64 == size {
                read = u64::saturating_add(read, 1);
            }
        }
    }
    Ok(read)
}

fn number(word: &str) -> u64 {
    word.parse::<u64>().unwrap_or(0)
}

fn port(word: &str) -> u16 {
    word.parse::<u16>().unwrap_or(0)
}

// The text before the first space and the text behind it.
fn cut(text: &str) -> (&str, &str) {
    text.split_once(' ').unwrap_or((text, ""))
}

fn count(rt: &HostRuntime, read: Result<u64, Memory>) -> io::Result<()> {
    match read {
        Ok(read) => println!(rt; "{read}"),
        Err(Memory) => println!(rt; "memory"),
    }
}

fn row(rt: &HostRuntime, log: Log, line: &str) -> io::Result<()> {
    let (word, rest) = cut(line);
    let (first, rest) = cut(rest);
    let (second, third) = cut(rest);
    let alloc = rt.alloc();
    let mut net = RealNetwork::new(rt, rt.alloc(), [127, 0, 0, 1], log);
    match word {
        "serve" | "stream" => {
            let Ok(page) = filled(alloc, number(third)) else {
                return println!(rt; "memory");
            };
            if net.listen(port(first)).is_err() {
                return println!(rt; "no port");
            }
            println!(rt; "listens")?;
            serve_all(rt, &mut net, number(second), page.as_slice(), word == "stream")
        }
        "asks" => count(
            rt,
            asks(alloc, number(first), number(second), number(third)),
        ),
        "get" => get(rt, net, port(first), second, third),
        "request" => count(
            rt,
            requests(alloc, number(first), number(second), number(third)),
        ),
        _ => count(
            rt,
            pages(alloc, number(first), number(second), number(third)),
        ),
    }
}

fn main(rt: HostRuntime) -> io::Result<()> {
    let log = match env::var(&rt, "FED_LOG") {
        Ok(word) if word.as_str() == "off" => Log::Off,
        _ => Log::Lines,
    };
    for line in rt.lines(rt.alloc()) {
        let line = line?;
        row(&rt, log, line.as_str())?;
    }
    Ok(())
}
'''

# what stays so in the program's loop
PROOFS = {
    "proofs/serve_all/Invariants.antt": """use Rattle.std.proofs.Common.{◌≡◌, true}
use Rattle.std.specs.Prelude.{is_some}
use Rattle.web.proofs.serve_all.Given as goal

abbrev pub invariant-callers : goal.invariant-callers
invariant-callers g l = is_some (g.N.Network.port l.net) ≡ true
"""
}


class Served:
    """The program as a server of so many callers, which curl is one after the other."""

    def __init__(self, callers):
        self.port = free_port()
        self.url = f"http://127.0.0.1:{self.port}"
        self.noted = []
        self.program = subprocess.Popen([program], stdin=subprocess.PIPE, stdout=subprocess.PIPE, stderr=subprocess.PIPE)
        self.program.stdin.write(f"serve {self.port} {callers} 12288\n".encode())
        self.program.stdin.close()
        self.program.stdin = None
        said = self.program.stdout.readline()
        if said != b"listens\n":
            self.__exit__()
            raise OSError(f"port {self.port}: {said!r}")

    def __enter__(self):
        return self

    def __exit__(self, *_):
        if self.program.poll() is None:
            self.program.kill()
            self.program.wait()

    def curl(self, *words, given=b""):
        """What curl writes for these words, and its status."""
        done = subprocess.run(["curl", "-q", "-sS", "-m", "20", "--noproxy", "*", *words], input=given, capture_output=True, timeout=MOST)
        return done.stdout, done.returncode

    def note(self, line, status, body):
        """Such a line is to stand in the log."""
        self.noted.append(f"{line} {status} {len(head_of(status, body) + body)}")

    def comes(self, what, words, line, body, given=b""):
        """These bytes come, with status 200."""
        got, status = self.curl("-w", "%{http_code} %{content_type}", *words, given=given)
        tell(f"{what}: curl ended with {status} and wrote {got[:300]!r}, {len(got)} bytes", status == 0 and got == body + b"200 application/json")
        self.note(line, "200 OK", body)

    def answers(self, what, words, line, rest, given=b""):
        """The request is told: its method and path, and then the rest."""
        self.comes(what, words, line, line.encode() + rest, given)

    def refuses(self, what, words, line, given=b""):
        """The bytes are told to be no request, with status 400."""
        got, status = self.curl("-w", "%{http_code}", *words, given=given)
        tell(f"{what}: curl ended with {status} and wrote {got[:300]!r}", status == 0 and got == b"no request400")
        self.note(line, "400 Bad Request", b"no request")

    def ends(self, what):
        """The program waits for no more callers, answered all and noted them so."""
        out, err = self.program.communicate(timeout=MOST)
        tell(f"{what}: wrote {out!r}, status {self.program.returncode}", out == b"" and self.program.returncode == 0)
        found = [re.sub(r"^[\dT:.Z-]+ 127\.0\.0\.1:\d+ (.*) \d+$", r"\1", line) for line in err.decode().split("\n")[:-1]]
        wanted = [re.sub(" (OK|Bad Request) ", " ", it) for it in self.noted]
        tell(f"{what}: the log is {found}, not {wanted}", found == wanted)


def head_of(status, body):
    """The head of the program's answer."""
    return f"HTTP/1.1 {status}\r\nContent-Type: application/json\r\nContent-Length: {len(body)}\r\nConnection: close\r\n\r\n".encode()


def queries():
    with Served(4) as it:
        rest = b"\nsub=https://a.example\nx=a b\n\n"
        it.answers("a query", [f"{it.url}/fed/fetch?sub=https%3A%2F%2Fa.example&x=a+b"], "GET /fed/fetch", rest)
        form = ["--data-urlencode", "sub=https://a.example/ä", "--data-urlencode", "anchor=b&c=d"]
        it.answers("a query of a form", ["-G", *form, f"{it.url}/resolve"], "GET /resolve", "\nsub=https://a.example/ä\nanchor=b&c=d\n\n".encode())
        it.answers("HTTP/1.0", ["-0", "--path-as-is", f"{it.url}/a/../b%20c"], "GET /a/../b%20c", b"\n\n")
        it.comes("a page", [f"{it.url}/page"], "GET /page", b"x" * 12288)
        it.ends("queries")


def bodies():
    with Served(5) as it:
        it.answers("a form", ["--data-urlencode", "trust_mark=a.b&c", f"{it.url}/status?x=1"], "POST /status", b"\nx=1\n\ntrust_mark=a.b%26c")
        it.answers("an empty body", ["-d", "", f"{it.url}/"], "POST /", b"\n\n")
        whole = bytes(range(97, 123)) * 11539
        for size in (299999, 300000):
            body = whole[:size]
            it.answers(f"a body of {size} bytes", ["--data-binary", "@-", f"{it.url}/"], "POST /", b"\n\n" + body, given=body)
        it.answers("a body of a GET", ["-X", "GET", "-d", "a=b", f"{it.url}/"], "GET /", b"\n\n")
        it.ends("bodies")


def refusals():
    with Served(5) as it:
        it.refuses("chunks", ["-H", "Transfer-Encoding: chunked", "-d", "a=b", f"{it.url}/"], "POST /")
        it.refuses("another method", ["-X", "DELETE", f"{it.url}/"], "DELETE /")
        it.refuses("two lengths", ["-H", "Content-Length: 0", "-H", "content-length: 0", "-X", "POST", f"{it.url}/"], "POST /")
        it.refuses("no length", ["-X", "POST", f"{it.url}/"], "POST /")
        # a body that is too long isn't read, so that the connection may be reset while curl sends it
        got, status = it.curl("-w", "%{http_code}", "--data-binary", "@-", f"{it.url}/long", given=b"x" * 300001)
        told = status == 0 and got == b"no request400"
        tell(f"a body over the limit: curl ended with {status} and wrote {got[:300]!r}", told or status in (55, 56))
        it.note("POST /long", "400 Bad Request", b"no request")
        it.ends("refusals")


def heads():
    with Served(4) as it:
        plain = ["-H", "User-Agent:", "-H", "Accept:"]
        size = len(f"GET / HTTP/1.1\r\nHost: 127.0.0.1:{it.port}\r\nX: \r\n\r\n")
        it.answers("a head of 16,384 bytes", [*plain, "-H", f"X: {'y' * (16384 - size)}", f"{it.url}/"], "GET /", b"\n\n")
        it.refuses("a head of 16,385 bytes", [*plain, "-H", f"X: {'y' * (16385 - size)}", f"{it.url}/"], "GET /")
        # the line `Host` is one of them
        lines = [word for at in range(64) for word in ("-H", f"X-{at}: y")]
        it.answers("64 lines of head", [*plain, *lines[:-2], f"{it.url}/"], "GET /", b"\n\n")
        it.refuses("65 lines of head", [*plain, *lines, f"{it.url}/"], "GET /")
        it.ends("heads")


def keeping():
    with Served(2) as it:
        words = ["-H", "Connection: keep-alive", "-D", "-", "-w", "%{num_connects}\n", f"{it.url}/a", f"{it.url}/b"]
        got, status = it.curl(*words)
        bodies = [b"GET /a\n\n", b"GET /b\n\n"]
        wanted = b"".join(head_of("200 OK", body) + body + b"1\n" for body in bodies)
        tell(f"keep-alive: curl ended with {status} and wrote {got!r}", status == 0 and got == wanted)
        for line, body in zip(("GET /a", "GET /b"), bodies):
            it.note(line, "200 OK", body)
        it.ends("keep-alive")


class Pages(http.server.SimpleHTTPRequestHandler):
    """Files of a folder, and pages by hand."""

    protocol_version = "HTTP/1.1"
    asked = []
    parts = [b"one ", b"two ", b"x" * 70000]

    def log_message(self, *_):
        pass

    def head(self, *lines):
        self.send_response(200)
        for name, value in lines:
            self.send_header(name, value)
        self.end_headers()

    def chunk(self, bytes, extension=b""):
        self.wfile.write(b"%X%b\r\n%b\r\n" % (len(bytes), extension, bytes))

    def do_GET(self):
        self.asked.append((self.path, self.request_version, sorted(self.headers.items())))
        self.close_connection = True
        match self.path.split("?")[0]:
            case "/chunks":
                self.head(("Transfer-Encoding", "chunked"))
                for part in self.parts:
                    self.chunk(part, b" ;name=value")
                self.chunk(b"")
            case "/chunks-long" | "/chunks-most":
                self.head(("Transfer-Encoding", "chunked"))
                for _ in range(64):
                    self.chunk(b"y" * 4096)
                if self.path == "/chunks-long":
                    self.chunk(b"y")
                self.chunk(b"")
            case "/chunks-cut":
                self.head(("Transfer-Encoding", "chunked"))
                self.chunk(b"y" * 100)
            case "/to-the-end":
                self.head()
                self.wfile.write(b"to the end")
            case "/cut":
                self.head(("Content-Length", "100"))
                self.wfile.write(b"y" * 99)
            case "/more":
                self.head(("Content-Length", "4"))
                self.wfile.write(b"more than was told")
            case "/coded":
                self.head(("Content-Encoding", "gzip"), ("Content-Length", "4"))
                self.wfile.write(b"abcd")
            case "/none":
                pass
            case _:
                super().do_GET()


class Server(http.server.ThreadingHTTPServer):
    """Says nothing where the program shuts the connection before it has the whole page."""

    def handle_error(self, *_):
        pass


def got(port, host, url):
    """What the program writes for a page."""
    done = subprocess.run([program], input=f"get {port} {host} {url}\n".encode(), capture_output=True, timeout=MOST)
    return done.stdout[:-1] if done.returncode == 0 and done.stderr == b"" else repr(done).encode()


def pages():
    with tempfile.TemporaryDirectory() as place:
        for name, text in {"page.txt": b"a page\nof two lines\n", "empty": b"", "most": b"z" * 262144, "over": b"z" * 262145}.items():
            with open(f"{place}/{name}", "wb") as it:
                it.write(text)
        os.mkdir(f"{place}/folder")
        server = Server(("127.0.0.1", 0), lambda *words: Pages(*words, directory=place))
        port = server.server_address[1]
        thread = threading.Thread(target=server.serve_forever)
        thread.start()
        try:
            wanted = {
                "page.txt": b"Document\na page\nof two lines\n",
                "empty": b"Document\n",
                "most": b"Document\n" + b"z" * 262144,
                "over": b"TooLong",
                "missing": b"Refusal 404",
                "folder": b"Refusal 301",
                "chunks": b"Document\n" + b"".join(Pages.parts),
                "chunks-most": b"Document\n" + b"y" * 262144,
                "chunks-long": b"TooLong",
                "chunks-cut": b"Garbled",
                "to-the-end": b"Document\nto the end",
                "cut": b"Garbled",
                "more": b"Document\nmore",
                "coded": b"Garbled",
                "none": b"Garbled",
            }
            for name, page in wanted.items():
                came = got(port, "a.example", f"https://a.example/{name}")
                tell(f"the page {name}: {came[:300]!r}, {len(came)} bytes", came == page)
            count = len(Pages.asked)
            for url in ("https://b.example/page.txt", "ftp://a.example/page.txt", "a.example"):
                came = got(port, "a.example", url)
                tell(f"no route: {came[:300]!r}", came == b"NoRoute" and len(Pages.asked) == count)
            came = got(port, "127.0.0.1", f"http://127.0.0.1:{port}/page.txt?a=b%20c#d")
            tell(f"an address: {came[:300]!r}", came == wanted["page.txt"])
            lines = [("Accept", "*/*"), ("Connection", "close"), ("Host", f"127.0.0.1:{port}")]
            tell(f"asked: {Pages.asked[-1]}", Pages.asked[-1] == ("/page.txt?a=b%20c", "HTTP/1.1", lines))
            lines[2] = ("Host", "a.example")
            tell(f"asked: {Pages.asked[0]}", Pages.asked[0] == ("/page.txt", "HTTP/1.1", lines))
        finally:
            server.shutdown()
            server.server_close()
            thread.join()
        came = got(free_port(), "a.example", "http://a.example/")
        tell(f"nobody listens: {came[:300]!r}", came == b"Failed")


building = sys.argv[1:2] == ["--build"]
keeps = sys.argv[2 if building else 1 :]
folder = keeps[0] if keeps else tempfile.mkdtemp()
program = laid.built(folder, "web", PROGRAM, ["fed_base", "fed_ports", "utc_dates", "plain_notes", "network_notes", "waiting_callers", "fed_net", "chunked_body", "http_messages", "http_plain", "http_stream"], PROOFS)
if building:
    sys.exit(0)
rows = [pages]
if shutil.which("curl"):
    rows += [queries, bodies, refusals, heads, keeping]
else:
    print("web: there is no curl here, so nothing is asked by it")
status = laid.tried("web", rows)
if not keeps:
    shutil.rmtree(folder)
sys.exit(status)
