#!/usr/bin/env python3
"""Runs the blocks of README.md and of docs/ as they stand, those of one document by one shell in an empty folder, which has the program and the
examples beside it. A line before a block says what else is to be done with it, and every block that isn't run has one:

    <!-- not run: WHY -->          a block of commands that isn't run; the run tells each with its reason
    <!-- runs until stopped -->    a block that serves on port 8300; it is stopped once somebody could ask it
    <!-- written -->               what the last block that was run writes to standard output
    <!-- file NAME -->             a text that the blocks behind it find under this name

It prints what differs and fails where anything does."""

import glob
import json
import os
import re
import shutil
import signal
import subprocess
import sys
import tempfile
import threading
from contextlib import ExitStack

sys.dont_write_bytecode = True
sys.path.insert(0, f"{os.path.dirname(os.path.dirname(os.path.abspath(__file__)))}/lib")
from laid import TOP, faults, tell, tried  # noqa: E402

if {"-h", "--help"} & set(sys.argv[1:]):
    sys.exit(print(__doc__))

PATIENCE = 300
MARK = re.compile(r"<!-- (not run: .+|runs until stopped|written|file [\w.]+) -->$")
START = """set -euo pipefail
umask 022
"""
# a block is told to both outputs, so that what it writes can be told from the others'
BLOCK = """
printf '\\n@block %s\\n' {number} | tee /dev/stderr
{text}"""
SERVER = """
printf '\\n@block %s\\n' {number} | tee /dev/stderr
is_asked() {{ (exec 3<>/dev/tcp/127.0.0.1/8300) 2>/dev/null; }}
if is_asked; then echo 'somebody else serves on port 8300' >&2; false; fi
set -m
(
{text}) &
served=$!
set +m
trap 'kill -- "-$served" 2>/dev/null || true' EXIT
for _ in $(seq 300); do
    if is_asked; then asked=yes; break; fi
    kill -0 "$served" 2>/dev/null || break
    sleep 0.1
done
kill -- "-$served" 2>/dev/null || {{ wait "$served"; false; }}
wait "$served" 2>/dev/null || true
trap - EXIT
test "${{asked-}}" = yes
"""
not_run = []
# documents run side by side, but for those that name one port
ports = {}


def blocks_of(path):
    """Gives each block of a document: its line, its language, its mark and its text."""
    with open(f"{TOP}/{path}", encoding="utf-8") as it:
        lines = it.read().split("\n")
    found, at = [], 0
    while at < len(lines):
        fence = re.match(r"```(\w*)$", lines[at])
        if fence:
            mark = MARK.match(lines[at - 1])
            end = lines.index("```", at + 1)
            found.append((at + 1, fence[1], mark[1] if mark else "", "".join(f"{it}\n" for it in lines[at + 1 : end])))
            at = end
        elif MARK.match(lines[at]):
            tell(f"{path}:{at + 1}: no block stands behind this mark", lines[at + 1].startswith("```"))
        elif "```" in lines[at] or lines[at].startswith("<!--"):
            tell(f"{path}:{at + 1}: neither a block nor one of the marks", False)
        at += 1
    return found


def script_of(path, blocks):
    """Gives what the shell runs, the blocks that it runs, and what those write where the document says so."""
    parts, run, written = [START], [], {}
    for line, language, mark, text in blocks:
        place = f"{path}:{line}"
        commands = language == "sh" or text.startswith("$ ")
        tell(f"{place}: this test knows no blocks of {language}", language in ("", "json", "python", "sh"))
        if mark.startswith("not run: "):
            tell(f"{place}: a block that is no commands isn't run anyway", commands)
            not_run.append((path, line, mark[9:]))
        elif commands:
            tell(f"{place}: a block that shows commands with what they write is run by nothing, and needs its mark", language == "sh")
            tell(f"{place}: the mark {mark} isn't one of commands", mark in ("", "runs until stopped"))
            parts.append((SERVER if mark else BLOCK).format(number=line, text=text))
            run.append(line)
        elif mark == "written":
            tell(f"{place}: no block before it is run", bool(run))
            written[run[-1]] = text
        elif mark:
            tell(f"{place}: the mark {mark} is one of commands", mark.startswith("file "))
            parts.append(f"cat >{mark[5:]} <<'end of the file'\n{text}end of the file\n")
        if language == "python":
            tell(f"{place}: a block of Python is run from a file alone, and needs the mark of one", mark.startswith("file "))
        if language == "json":
            try:
                json.loads(text)
                tell("", True)
            except ValueError as error:
                tell(f"{place}: {error}", False)
    return "".join(parts), run, written


def parts_of(said):
    """Gives what each block wrote."""
    _, *rest = re.split(r"\n@block (\d+)\n", "\n" + said)
    return dict(zip(map(int, rest[::2]), rest[1::2]))


def stop(running):
    """Stops all that is left of what it started."""
    try:
        os.killpg(running.pid, signal.SIGTERM)
    except ProcessLookupError:
        pass


def run_by_bash(script, folder):
    """Gives the status and what is written to both outputs. Where it takes too long, or leaves something running, that is stopped."""
    environment = {its: value for its, value in os.environ.items() if not its.startswith("FED_")}
    environment["PATH"] = f"{TOP}:{environment['PATH']}"
    pipes = {"stdin": subprocess.DEVNULL, "stdout": subprocess.PIPE, "stderr": subprocess.PIPE}
    running = subprocess.Popen(["bash", "-c", script], text=True, cwd=folder, env=environment, start_new_session=True, **pipes)
    try:
        out, err = running.communicate(timeout=PATIENCE)
    except subprocess.TimeoutExpired:
        stop(running)
        out, err = running.communicate()
    stop(running)
    return running.returncode, out, err


def run_document(path, script, run, written):
    with tempfile.TemporaryDirectory() as folder:
        # (no links: ./fed finds its sources by its own name)
        shutil.copytree(f"{TOP}/examples", f"{folder}/examples")
        os.symlink(f"{TOP}/tests", f"{folder}/tests")
        with open(f"{folder}/fed", "w", encoding="utf-8") as it:
            it.write(f'#!/bin/sh\nexec "{TOP}/fed" "$@"\n')
        os.chmod(f"{folder}/fed", 0o755)
        status, out, err = run_by_bash(script, folder)
    outs, errs = parts_of(out), parts_of(err)
    last = max(outs, default=0)
    for line in run:
        ended = line in outs and (line != last or status == 0)
        tell(f"{path}:{line}: " + (f"status {status}, {outs[line]}{errs.get(line, '')}" if line in outs else "not reached"), ended)
        if line in written:
            tell(f"{path}:{line}: writes {outs.get(line)!r}, not {written[line]!r}", outs.get(line) == written[line])


def row_of(path):
    """Gives what runs a document, where its marks are as they should be and it has something to run."""
    before = len(faults)
    plan = script_of(path, blocks_of(path))
    if len(faults) > before:
        print(f"{path} isn't run", file=sys.stderr)
        return None

    named = sorted(set(re.findall(r"\b8[0-9]{3}\b", plan[0])))
    locks = [ports.setdefault(port, threading.Lock()) for port in named]

    def row():
        with ExitStack() as held:
            for lock in locks:
                held.enter_context(lock)
            run_document(path, *plan)

    row.__name__ = path
    return row if plan[1] else None


if not shutil.which("curl"):
    print("documents: examples/federation.sh wants curl", file=sys.stderr)
PATHS = ["README.md", *sorted(os.path.relpath(it, TOP) for it in glob.glob(f"{TOP}/docs/**/*.md", recursive=True))]
subprocess.run([f"{TOP}/fed", "--version"], stdout=subprocess.DEVNULL, check=True)
status = tried("documents", list(filter(None, map(row_of, PATHS))))
for path, line, why in not_run:
    print(f"documents: not run: {path}:{line}: {why}")
sys.exit(status)
