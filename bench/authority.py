#!/usr/bin/env python3
"""What an authority costs by the number of its subordinates, over a configuration of some 400 bytes a subordinate: the time to open it and the
peak of the memory, at 100, 1,000 and 10,000; and, where valgrind is there, the instructions of reading it beside those of the kit's JSON
reader alone (which reads it and lets it go), and those of a fetch beside those of sealing it, which is nearly all its signature.

    bench/authority.py [COUNT]    COUNT is how often each node is opened in a round (5)

A node is opened by a call on a port that is taken, which ends with status 7 behind the reading. The time is user and system time together, the
least of three rounds, less that of a node without subordinates, whose ring has the same one key.

The JSON reader alone is a small program over the kit's `serde_json`, which is proved and built first (a minute): it reads the configuration and
lets go of what it read, as the authority does too.
"""

import json
import os
import re
import shutil
import socket
import subprocess
import sys
import tempfile
import time

if {"-h", "--help"} & set(sys.argv[1:]):
    sys.exit(print(__doc__))

TOP = os.path.dirname(os.path.dirname(os.path.abspath(__file__)))
SIZES = [100, 1000, 10000]
ROUNDS = 3
ID = "https://ta.example"
ALONE = """// Reads a line as JSON, and lets go of what it read.
#![tactic(auto)]

use serde_json::Value;
use std::io;

fn main(rt: HostRuntime) -> io::Result<()> {
    for line in rt.lines(rt.alloc()) {
        let text = line?;
        match Value::from_slice(rt.alloc(), text.as_bytes()) {
            Ok(_) => println!(rt; "read")?,
            Err(_) => println!(rt; "not read")?,
        }
    }
    Ok(())
}
"""


def built():
    """The program, which the script `fed` builds where it isn't yet."""
    subprocess.run([f"{TOP}/fed", "--version"], check=True, stdout=subprocess.DEVNULL)
    return f"{TOP}/out/fed"


def reader(place):
    """The program that reads JSON alone, for the target that `fed` is built for."""
    own = f"{place}/crates/alone"
    for path, text in {"src/main.rt": ALONE, "specs/Lib.antt": "", "proofs/Lib.antt": "", "../../crates.txt": "alone: serde_json\n"}.items():
        os.makedirs(os.path.dirname(f"{own}/{path}"), exist_ok=True)
        with open(f"{own}/{path}", "w", encoding="utf-8") as it:
            it.write(text)
    with open("/proc/cpuinfo", encoding="utf-8") as it:
        target = ["--cpu=x86-64-v3"] if re.search(r"\bavx2\b", it.read()) else []
    done = subprocess.run(["rt", "run", *target], cwd=own, stdin=subprocess.DEVNULL, capture_output=True, text=True)
    if done.returncode:
        sys.exit(f"authority: the program that reads JSON alone isn't built: {done.stdout[-300:]}{done.stderr[-300:]}")
    return f"{own}/out/alone"


def written(place, key, size):
    subordinates = [{"entity_id": f"https://rp-{n:05}.example", "jwks": {"keys": [key]}, "entity_types": ["openid_relying_party"],
                     "metadata_policy": {"openid_relying_party": {"contacts": {"add": ["help@ta.example"]}, "scope": {"subset_of": ["openid", "email"]}}}}
                    for n in range(size)]
    name = f"{place}/node-{size}.json"
    with open(name, "w", encoding="utf-8") as it:
        json.dump({"entity_id": ID, "ring": f"{place}/ring", "lifetime": 3600, "subordinates": subordinates}, it, separators=(",", ":"))
    return name


def words(fed, config, port, connections):
    return [fed, "authority", "--config", config, "--port", str(port), "--connections", str(connections)]


def seconds(fed, config, port, count):
    """User and system time of so many openings."""
    before = os.times()
    for _ in range(count):
        done = subprocess.run(words(fed, config, port, 1), capture_output=True)
        if done.returncode != 7:
            sys.exit(f"authority: {done}")
    after = os.times()
    return (after.children_user + after.children_system - before.children_user - before.children_system) / count


def free_port():
    with socket.socket() as it:
        it.bind(("127.0.0.1", 0))
        return it.getsockname()[1]


def connected(port, running):
    for _ in range(60000):
        try:
            return socket.create_connection(("127.0.0.1", port))
        except ConnectionRefusedError:
            if running.poll() is not None:
                sys.exit(f"authority: {running.communicate()}")
            time.sleep(0.01)
    sys.exit(f"authority: nobody listens on port {port}")


def asked(port, running, path):
    with connected(port, running) as it:
        it.sendall(f"GET {path} HTTP/1.1\r\nHost: ta.example\r\n\r\n".encode())
        got = b""
        while piece := it.recv(65536):
            got += piece
    if not got.startswith(b"HTTP/1.1 200"):
        sys.exit(f"authority: {path} gives {got[:200]}")


def peak(fed, config):
    """The peak of the resident memory, in KiB, once a statement and the list were asked for."""
    port = free_port()
    running = subprocess.Popen(words(fed, config, port, 3), stdout=subprocess.DEVNULL, stderr=subprocess.PIPE)
    asked(port, running, "/fetch?sub=https%3A%2F%2Frp-00099.example")
    asked(port, running, "/list")
    with open(f"/proc/{running.pid}/status", encoding="utf-8") as it:
        found = int(re.search(r"VmHWM:\s*(\d+)", it.read())[1])
    asked(port, running, "/list")
    running.communicate()
    return found


def counted(place, command, ask=None, given=None):
    """The instructions of a run by function, each with what it calls; `given` is the file of its input."""
    kept = f"{place}/callgrind"
    if os.path.exists(kept):
        os.remove(kept)
    with open(given or os.devnull, "rb") as it:
        running = subprocess.Popen(["valgrind", "--tool=callgrind", f"--callgrind-out-file={kept}", *command], stdin=it, stdout=subprocess.PIPE,
                                   stderr=subprocess.PIPE)
        if ask:
            ask(running)
        running.communicate()
    text = subprocess.run(["callgrind_annotate", "--inclusive=yes", "--threshold=100", kept], capture_output=True, check=True).stdout.decode()
    by_name = {}
    for line in text.split("\n"):
        found = re.match(r"\s*([\d,]+) \(\s*[\d.]+%\)\s+(.*)", line)
        if found:
            by_name[found[2]] = max(int(found[1].replace(",", "")), by_name.get(found[2], 0))
    return by_name


def inclusive(by_name, pattern):
    found = [count for name, count in by_name.items() if re.search(pattern, name)]
    if not found:
        sys.exit(f"authority: no function {pattern} was counted")
    return max(found)


def instructions(fed, place, key, taken):
    config = written(place, key, SIZES[-1])
    length = os.path.getsize(config)
    counts = counted(place, [reader(place)], given=config)
    alone = inclusive(counts, READER) + inclusive(counts, VALUE)
    counts = counted(place, words(fed, config, taken, 1))
    for what, count in (("the JSON reader alone", alone), ("the tree", inclusive(counts, TREE)), ("what it sets", inclusive(counts, SETTINGS)),
                        ("all of the reading", inclusive(counts, SERVICE) - inclusive(counts, RING))):
        print(f"{length} bytes of configuration: {what:21} {count:>13,} instructions, {count / length:6.1f} a byte, {count / alone:5.2f} of the first")
    for size in SIZES:
        port = free_port()
        name = f"https%3A%2F%2Frp-{size - 1:05}.example"
        counts = counted(place, words(fed, written(place, key, size), port, 1), lambda it: asked(port, it, f"/fetch?sub={name}"))
        served, signed = inclusive(counts, SERVE), inclusive(counts, SIGN)
        print(f"a fetch of the last of {size:5}: its sealing {signed:>13,}, all other work {served - signed:>11,} instructions")


# of the program that reads JSON alone: reading, and letting go of what was read; of the program its own reading, the node of a tree, the ring, and a
# connection with its sealing. Which of two names there is depends on what the compiler puts in place of a call
READER = r"serde_json::de::read_members \["
VALUE = r"serde_json\+\+value\+\+Value\+Destruct::drop \["
TREE = r"fed_json::read::read_tree \["
SETTINGS = r"node_config::node::(?:NodeConfig::read|settings_in) \["
SERVICE = r"node_service::(?:service::serve_authority|node_files::open_node)::<#[0-9a-f]+> \["
RING = r"key_ring::ring::KeyRing::open \["
SERVE = r"fed_serve::serving::(?:serve_one|serve_by)::<#[0-9a-f]+> \["
SIGN = r"sealed::sealing::(?:seal_payload|seal_signed::<#[0-9a-f]+>) \["


def main():
    count = int(sys.argv[1]) if len(sys.argv) > 1 else 5
    fed = built()
    with tempfile.TemporaryDirectory() as place, socket.socket() as held:
        held.bind(("127.0.0.1", 0))
        held.listen()
        taken = held.getsockname()[1]
        key = json.loads(subprocess.run([fed, "keygen", "--ring", f"{place}/ring", "--at", "1", "--exp", "2"], input=b"%096d" % 1,
                                        capture_output=True, check=True).stdout)
        os.chmod(f"{place}/ring", 0o600)
        configs = {size: written(place, key, size) for size in [0, *SIZES]}
        least = {size: min(seconds(fed, config, taken, count) for _ in range(ROUNDS)) for size, config in configs.items()}
        for size in SIZES:
            spent = (least[size] - least[0]) * 1000
            held_by, length = peak(fed, configs[size]), os.path.getsize(configs[size])
            print(f"{size:5} subordinates, {length:8} bytes: opened in {spent:7.1f} ms, {spent * 1000 / size:6.1f} us a subordinate; "
                  f"peak {held_by:7} KiB, {held_by * 1024 / length:5.1f} times the configuration")
        if shutil.which("valgrind"):
            instructions(fed, place, key, taken)
        else:
            print("there is no valgrind here, so no instructions are counted")


main()
