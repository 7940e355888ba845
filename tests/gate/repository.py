#!/usr/bin/env python3
"""What no proof sees of the repository: its shape, its layers, and that it stands alone.

It prints what is amiss, and fails where anything is.
"""

import os
import re
import subprocess
import sys

TOP = os.path.dirname(os.path.dirname(os.path.dirname(os.path.abspath(__file__))))
KIT = set("sha2 base64 serde_json url form_urlencoded hex httparse lru atomic_table thiserror".split())
# the parts of a crate's page, in their order
MOST_CHAIN, MOST_PATHS, MOST_LINES = 12, 250_000, 1420
PARTS = ["One call", "Definitions", "What is proved", "What is tested"]
# how often a crate may make another network or clock: what is done over it no clause sees. In the last two one stands in the place of the
# network while a link has that, and nothing is done over it
OTHERS = {"fed": 1, "heeded_reply": 1, "resolve_call": 1, "resolver_service": 2}
# the crates that make sentences of whatever they are handed, and what they don't stand on, since it opens rings or holds their seeds
NOTES, SEEDED = {"plain_notes", "statement_notes", "chain_notes", "cli_notes", "file_notes", "resolve_notes"}, {"key_ring", "slh_dsa", "sign_many"}
faults = []


def fault(words):
    faults.append(words)


def text_of(path):
    with open(f"{TOP}/{path}", encoding="utf-8") as it:
        return it.read()


def listed():
    """Gives the files that git keeps or would add, but those that were taken away."""
    said = subprocess.run(["git", "ls-files", "--cached", "--others", "--exclude-standard"], cwd=TOP, capture_output=True, text=True, check=True)
    return [it for it in said.stdout.split("\n") if it and os.path.isfile(f"{TOP}/{it}")]


def layers():
    """Gives each crate's layer, its place in crates.txt and what it stands on."""
    found, layer = {}, None
    for line in text_of("crates.txt").split("\n"):
        head = re.match(r"# layer (\d+), ([a-z ]+?)(:.*)?$", line)
        if head:
            layer = int(head[1]), head[2]
        at = re.match(r"([a-z_0-9]+)[^:]*:(.*)", line)
        if at:
            if layer is None:
                fault(f"crates.txt: {at[1]} stands in no layer")
                continue
            found[at[1]] = layer, len(found), at[2].split()
    return found


def check_layers(crates):
    for name, (layer, place, below) in crates.items():
        for other in below:
            if other in crates:
                if crates[other][0][0] > layer[0] or crates[other][1] > place:
                    fault(f"crates.txt: {name} stands on {other}, which is above it")
            elif other not in KIT:
                fault(f"crates.txt: {name} names the library {other}")
        if name in NOTES and SEEDED & set(below):
            fault(f"crates.txt: {name} makes sentences, and stands on {' and '.join(sorted(SEEDED & set(below)))}, which may hold seeds")


def check_ladder(crates):
    """Looks how many crates stand on one another, which is what a gate on several processors waits for, and on how many ways a crate is reached,
    each of which some kits walk one by one."""
    longest, paths = {}, {}
    for name, (_, _, below) in crates.items():
        own = [it for it in below if it in longest]
        longest[name] = 1 + max((longest[it] for it in own), default=0)
        paths[name] = 1 + sum(paths[it] for it in own)
    if max(longest.values()) > MOST_CHAIN:
        fault(f"crates.txt: {max(longest, key=longest.get)} stands on a chain of {max(longest.values())} crates, and not of at most {MOST_CHAIN}")
    if sum(paths.values()) > MOST_PATHS:
        fault(f"crates.txt has {sum(paths.values())} paths from a crate down, and not at most {MOST_PATHS}")


def check_crate(name, layer, files):
    root = next((it for it in (f"crates/{name}/src/lib.rt", f"crates/{name}/src/main.rt") if it in files), None)
    if root is None:
        fault(f"crates/{name} has no source")
        return
    if not re.match(rf"//! Layer {layer[0]}, (the )?{layer[1]}[:,.]", text_of(root)):
        fault(f"{root} doesn't open with its layer, '//! Layer {layer[0]}, {layer[1]}: '")
    page = f"crates/{name}/README.md"
    if page not in files:
        fault(f"{page} is missing")
    elif root.endswith("lib.rt"):
        parts = re.findall(r"^## (.*)$", text_of(page), re.M)
        if parts != PARTS:
            fault(f"{page} has the parts {parts}")
        # an edit turns what a clause says
        clauses = any("ensures " in text_of(it) for it in files if it.startswith(f"crates/{name}/src/"))
        if clauses and not any(it.endswith(".edit") and it.startswith((f"crates/{name}/", f"edits/{name}/")) for it in files):
            fault(f"crates/{name} has no edits")
    lines = others = 0
    for path in files:
        if path.startswith(f"crates/{name}/src/"):
            source = text_of(path)
            lines += source.count("\n")
            if "OpensLedgers" in source and layer[0] < 7 and name not in ("fed_base", "fed_ports"):
                fault(f"{path} names the runtimes that let ledgers be made, below the program")
            others += source.count(".another(")
    if root.endswith("lib.rt") and others != OTHERS.get(name, 0):
        fault(f"crates/{name}/src makes {others} other networks and clocks, and not {OTHERS.get(name, 0)}")
    if lines > MOST_LINES and root.endswith("lib.rt"):
        fault(f"crates/{name}/src has {lines} lines")


def check_edit(path, crates):
    """Looks at one edit: it says the bug that it plants, in a file that is there, and no other of its crate has its name."""
    lines = text_of(path).split("\n")
    bugs = [it for it in lines if it.startswith("bug: ")]
    if len(bugs) != 1 or lines[0] != bugs[0]:
        fault(f"{path} doesn't open with the bug that it plants, 'bug: '")
    at = re.fullmatch(r"crates/(\w+)/must-fail/(\w+)\.edit", path) or re.fullmatch(r"edits/(\w+)/(\w+)\.edit", path)
    if at is None or at[1] not in crates:
        fault(f"{path} stands beside no crate")
        return
    if path.startswith("edits/") and os.path.exists(f"{TOP}/crates/{at[1]}/must-fail/{at[2]}.edit"):
        fault(f"{path} stands in must-fail/ too")
    made, of, text = {}, None, None
    for line in lines:
        word, _, said = line.partition(": ")
        if word == "file":
            of = f"crates/{at[1]}/{said}"
            if not os.path.isfile(f"{TOP}/{of}"):
                fault(f"{path} changes {said}, which isn't there")
                return
            made.setdefault(of, text_of(of))
        elif word == "old":
            text = said
            if of is None or made[of].count(said) != 1:
                fault(f"{path}: '{said}' stands {made[of].count(said) if of else 0} times in {of}")
                return
        elif word == "new":
            made[of] = made[of].replace(text, said)


def check_source(path):
    source = text_of(path)
    lines = source.split("\n")
    if len(lines) > 800:
        fault(f"{path} has {len(lines)} lines")
    for number, line in enumerate(lines, 1):
        if len(line) > 140 and line.lstrip().startswith(("//", "--")):
            fault(f"{path}:{number}: a comment of {len(line)} characters")
        if path.endswith(".rt") and line.startswith("///"):
            at = next((it for it in lines[number:] if not it.startswith(("///", "#["))), "")
            if at.startswith("fn "):
                fault(f"{path}:{number}: a private function has a comment for callers")
    if re.search(r"/(specs|proofs)/[A-Z]\w*\.antt$", path) and not path.endswith("/Lib.antt") and not source.startswith("-- "):
        fault(f"{path} doesn't open with a line that says what it is about")
    if path.endswith(".antt"):
        check_comments(path, lines)
    if path.endswith("/Lib.antt"):
        names = [it for it in lines if it]
        if names != sorted(names):
            fault(f"{path} isn't in the order of its names")


def check_comments(path, lines):
    """Looks at the comments of definitions and lemmas: the head of a file is a sentence, and no other ends with a full stop."""
    at = 0
    while at < len(lines):
        end = at
        while end < len(lines) and lines[end].lstrip().startswith("-- "):
            end += 1
        if end > at and lines[end - 1].endswith(".") != (at == 0):
            fault(f"{path}:{end}: {'the head has no full stop' if at == 0 else 'a comment ends with a full stop'}")
        at = max(end, at + 1)


def anchors_of(path):
    """The names by which a page's headings are linked to."""
    found = set()
    for line in text_of(path).split("\n"):
        at = re.match(r"#+ (.*)$", line)
        if at:
            plain = re.sub(r"\[([^\]]*)\]\([^)]*\)", r"\1", re.sub(r"[`*]", "", at[1]))
            found.add(re.sub(r"[^\w\- ]", "", plain.lower()).replace(" ", "-"))
    return found


def check_links(files):
    for path in files:
        if not path.endswith(".md"):
            continue
        for label, link, anchor in re.findall(r"\[([^\]]*)\]\(([^)#\s]*)#?([^)\s]*)\)", text_of(path)):
            if re.match(r"[a-z]+:", link):
                continue
            to = os.path.normpath(os.path.join(os.path.dirname(path), link)) if link else path
            # a label that is a file's name is the name of the file that it leads to
            named = label.strip("`")
            if link and re.fullmatch(r"[\w/.@-]+\.(md|py|sh|conf|json|service|timer)", named) and not f"/{to}".endswith(f"/{named}"):
                fault(f"{path} links to {to} by the name {named}")
            if not os.path.exists(f"{TOP}/{to}"):
                fault(f"{path} links to {link}, which isn't there")
            elif anchor and (not os.path.isfile(f"{TOP}/{to}") or anchor not in anchors_of(to)):
                fault(f"{path} links to {link}#{anchor}, which isn't there")


MONTHS = "January February March April May June July August September October November December".split()


def check_days(files):
    """Looks that no document tells a day, a machine or a kit's version: these stand beside the figures of bench/RESULTS.md, and in the log."""
    for path in files:
        if path.endswith(".md") and path != "bench/RESULTS.md":
            for found in re.finditer(rf"\b({'|'.join(MONTHS)}) 202\d|\brattle-kit-\d+|\bXeon\b", text_of(path)):
                fault(f"{path} tells of {found[0]}")


def check_sizes():
    """Looks that what a stranger reads first stays short."""
    for path, most in ("README.md", 12 * 1024), ("CONTRIBUTING.md", 9 * 1024):
        if len(text_of(path).encode()) > most:
            fault(f"{path} has {len(text_of(path).encode())} bytes, and not at most {most}")


def check_made():
    """Compares what scripts make of the tree with what stands there: pictures, the map of the crates, the tables of documents and manual."""
    for script in "docs/pictures/make", "crates/map", "docs/tables/make":
        said = subprocess.run([f"{TOP}/{script}", "--check"], capture_output=True, text=True, check=False)
        for line in said.stdout.splitlines():
            fault(line)
        if said.returncode and not said.stdout:
            fault(f"{script} fails: {said.stderr}")


def main():
    files = listed()
    if text_of("HANDLES").strip() != "Handles allowed: Threads, Wait, Net.":
        fault("HANDLES isn't its one line")
    for path in files:
        if "out" in path.split("/")[:-1]:
            fault(f"{path} is built, and must not be committed")
        if re.match(r"crates/.*\.(rt|antt)$", path):
            check_source(path)
    crates = layers()
    check_layers(crates)
    check_ladder(crates)
    for name, (layer, _, _) in crates.items():
        check_crate(name, layer, files)
    for path in files:
        if path.endswith(".edit"):
            check_edit(path, crates)
    check_links(files)
    check_days(files)
    check_made()
    check_sizes()
    for it in faults:
        print(f"repository: {it}", file=sys.stderr)
    if faults:
        return 1
    print("repository: as it should be")
    return 0


sys.exit(main())
