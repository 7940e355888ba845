#!/usr/bin/env python3
"""What ./install puts below a prefix, and that it is true: the program runs, the manual says what the program and the definitions say, its
examples run, and shells complete the program's own words. It prints what differs and fails where anything does."""

import http.client
import json
import os
import re
import shutil
import stat
import subprocess
import sys
import tempfile
import time

sys.dont_write_bytecode = True
sys.path.insert(0, f"{os.path.dirname(os.path.dirname(os.path.abspath(__file__)))}/lib")
from laid import TOP, free_port, tell, tried  # noqa: E402

FED = f"{TOP}/fed"
PATIENCE = 60
FILES = {
    "bin/fed": "out/fed",
    "share/man/man1/fed.1": "man/fed.1",
    "share/man/man5/fed-config.5": "man/fed-config.5",
    "share/man/man5/fed-ring.5": "man/fed-ring.5",
    "share/bash-completion/completions/fed": "completions/fed.bash",
    "share/zsh/site-functions/_fed": "completions/_fed",
    "share/fish/vendor_completions.d/fed.fish": "completions/fed.fish",
    **{f"share/doc/fed/{name}": f"docs/{name}" for name in ("COMMANDS.md", "POLICY.md", "STATEMENTS.md")},
    **{f"share/doc/fed/{name}": f"examples/{name}" for name in (
        "node.json", "resolver.json", "fed-authority@.service", "fed-authority@.socket", "fed-resolver@.service", "fed-resolver@.socket",
        "fed-renew.service", "fed-renew.timer", "nginx.conf", "nginx-resolver.conf", "nginx-outward.conf", "newkey.sh", "probe.sh", "renew.sh", "client.py", "asking.py", "endpoint.py")},
}
PROGRAMS = {"bin/fed", *(name for name in FILES if name.startswith("share/doc/fed/") and name.endswith((".sh", ".py")))}
PAGES = ["man/fed.1", "man/fed-config.5", "man/fed-ring.5"]
place = tempfile.mkdtemp(prefix="install of fed ")


def text_of(path):
    with open(f"{TOP}/{path}", encoding="utf-8") as it:
        return it.read()


def same(what, got, wanted):
    tell(f"{what}: {got!r}, not {wanted!r}"[:1200], got == wanted)


def run(words, given="", folder=place, **more):
    environment = {its: value for its, value in os.environ.items() if its not in ("DESTDIR", "FED_QUIET")}
    done = subprocess.run(words, input=given, capture_output=True, text=True, timeout=PATIENCE, cwd=folder, env={**environment, **more})
    return done.returncode, done.stdout, done.stderr


def fed(*words, given="", folder=place):
    return run([FED, *words], given, folder)


def folder_of(name):
    os.mkdir(f"{place}/{name}")
    return f"{place}/{name}"


def found(root):
    """Gives the names of all files below a folder."""
    return sorted(os.path.relpath(f"{at}/{name}", root) for at, _, names in os.walk(root) for name in names)


def install(*words, folder=place, script=(f"{TOP}/install",), **more):
    """Runs the script as somebody whose new files nobody else can read."""
    return run(["sh", "-c", 'umask 077 && exec "$@"', "sh", *script, *words], folder=folder, **more)


# ---- what is installed

def mode_of(path):
    return stat.S_IMODE(os.stat(path).st_mode)


def look_at(what, root):
    """Every file is there, with its mode and its bytes, and nothing else."""
    same(f"{what}: files", found(root), sorted(FILES))
    for name, source in FILES.items():
        with open(f"{root}/{name}", "rb") as it, open(f"{TOP}/{source}", "rb") as that:
            tell(f"{what}: {name} isn't {source}", it.read() == that.read())
        same(f"{what}: the mode of {name}", mode_of(f"{root}/{name}"), 0o755 if name in PROGRAMS else 0o644)
        same(f"{what}: the mode of the folder of {name}", mode_of(os.path.dirname(f"{root}/{name}")), 0o755)


def below_a_prefix():
    root = folder_of("a prefix")
    status, out, err = install(root + "/", PATH=f"{root}/bin:{os.environ['PATH']}")
    same("prefix: status and faults", (status, err), (0, ""))
    version = fed("--version")[1].strip()
    first = version.split("\n")[0]
    same("prefix: first line", out.split("\n")[0], f"{first} is installed below {root}:")
    tell("prefix: says that the PATH lacks it", "PATH" not in out)
    look_at("prefix", root)
    same("prefix: --version", run([f"{root}/bin/fed", "--version"])[:2], (0, version + "\n"))
    checked = run([f"{root}/bin/fed", "verify", text_of("examples/rp.pub").strip()], text_of("examples/rp.jwt"))
    same("prefix: verify", checked, (0, "valid https://rp.example\n", ""))
    tell("prefix: is silent of the PATH", f"{root}/bin isn't on the PATH" in install(root)[1])


def taken_away():
    root = folder_of("taken away")
    install(root)
    with open(f"{root}/share/man/man1/another.1", "w", encoding="utf-8") as it:
        it.write("another page")
    same("uninstall: status and faults", install("--uninstall", root)[::2], (0, ""))
    same("uninstall: files", found(root), ["share/man/man1/another.1"])
    tell("uninstall: its own folder stays", not os.path.exists(f"{root}/share/doc/fed"))
    same("uninstall of nothing: status", install("--uninstall", folder_of("empty"))[0], 0)


def pages_named_are_installed():
    """Every page of docs/ that a sentence of the program names is installed."""
    named = set()
    for crate in os.listdir(f"{TOP}/crates"):
        for source in found(f"{TOP}/crates/{crate}/src"):
            lines = text_of(f"crates/{crate}/src/{source}").split("\n")
            named.update(page for line in lines if not line.lstrip().startswith("//") for page in re.findall(r"docs/[\w/]+\.md", line))
    tell("the program names no page", "docs/COMMANDS.md" in named)
    same("pages that are named and not installed", sorted(named - set(FILES.values())), [])


def examples_are_sound():
    """The configurations that are installed are those of nodes, and the key script makes a key for one."""
    folder = folder_of("examples to begin with")
    for name, ring in ("node.json", "node.ring"), ("resolver.json", "resolver.ring"):
        key = run([f"{TOP}/examples/newkey.sh", ring], folder=folder)
        same(f"newkey.sh for {name}: status and faults", (key[0], key[2]), (0, ""))
        same(f"newkey.sh for {name}: the mode of the ring", mode_of(f"{folder}/{ring}"), 0o600)
        shutil.copy(f"{TOP}/examples/{name}", folder)
        same(f"{name}: status of check-config", fed("check-config", "--config", name, folder=folder)[0], 0)
    same("newkey.sh over a ring that is there", run([f"{TOP}/examples/newkey.sh", "node.ring"], folder=folder)[:2], (1, "refused Exists\n"))
    if shutil.which("systemd-analyze"):
        for unit in ("fed-authority@.service", "fed-resolver@.service"):
            named = f"{folder}/{unit.replace('@', '@8300')}"
            shutil.copy(f"{TOP}/examples/{unit}", named)
            said = run(["systemd-analyze", "security", "--offline=true", named])[1]
            level = re.search(r"Overall exposure level for \S+: ([0-9.]+)", said)
            tell(f"{unit} is rated {level and level[1]}", level is not None and float(level[1]) < 2)


def below_a_staging_folder():
    # below a prefix of this test's first, so that a script that doesn't look at DESTDIR writes nothing to the machine's own folders
    root, prefix = folder_of("staging"), f"{place}/staged"
    status, out, err = install(prefix, DESTDIR=root)
    same("DESTDIR: status and faults", (status, err), (0, ""))
    look_at("DESTDIR", root + prefix)
    if os.path.exists(prefix):
        tell("DESTDIR: something is installed beside it", False)
        return
    root = folder_of("of itself")
    same("DESTDIR without prefix: status", install(DESTDIR=root)[0], 0)
    look_at("DESTDIR without prefix", f"{root}/usr/local")


def over_an_older_one():
    root = folder_of("older")
    os.makedirs(f"{root}/bin")
    os.makedirs(f"{root}/share/man/man1")
    with open(f"{place}/kept", "w", encoding="utf-8") as it:
        it.write("as it was")
    os.symlink(f"{place}/kept", f"{root}/bin/fed")
    with open(f"{root}/share/man/man1/fed.1", "w", encoding="utf-8") as it:
        it.write("an older page")
    same("older: status", install(root)[0], 0)
    look_at("older", root)
    with open(f"{place}/kept", encoding="utf-8") as it:
        same("older: what a link led to", it.read(), "as it was")


def nothing_half_done():
    root = folder_of("half")
    os.makedirs(f"{root}/bin")
    with open(f"{root}/bin/fed", "w", encoding="utf-8") as it:
        it.write("an older program")
    os.makedirs(f"{root}/share/fish/vendor_completions.d/fed.fish")
    status, out, err = install(root)
    same("half: status and output", (status, out), (1, ""))
    tell(f"half: says {err}", "fed.fish is a folder" in err and "nothing is installed" in err)
    same("half: files", found(root), ["bin/fed"])
    with open(f"{root}/bin/fed", encoding="utf-8") as it:
        same("half: the older program", it.read(), "an older program")
    root = folder_of("blocked")
    with open(f"{root}/share", "w", encoding="utf-8") as it:
        it.write("a file")
    same("blocked: status", install(root)[0], 1)
    same("blocked: files", found(root), ["share"])


def stopped_half_way():
    root, tools = folder_of("stopped"), folder_of("tools")
    script = 'case "$*" in *fed-config.5*) kill -TERM 0 ;; esac; exec /bin/cp "$@"'
    run(["sh", "-c", 'printf "#!/bin/sh\\n%s\\n" "$0" >cp && chmod 755 cp', script], folder=tools)
    status, out, err = install(root, script=["setsid", "-w", f"{TOP}/install"], PATH=f"{tools}:{os.environ['PATH']}")
    same("stopped: status and output", (status, out), (1, ""))
    tell(f"stopped: says {err}", "stopped; nothing is installed" in err)
    same("stopped: files", found(root), [])


def without_a_program():
    copy, root = folder_of("copy"), folder_of("nothing")
    # by other programs: a file that this one still had open for writing when another row starts something couldn't be run
    run(["cp", "-R", *(f"{TOP}/{name}" for name in ("install", "man", "completions", "examples")), copy])
    run(["sh", "-c", "printf '#!/bin/sh\\necho fed: not built >&2\\nexit 70\\n' >fed && chmod 755 fed"], folder=copy)
    status, out, err = install(root, script=[f"{copy}/install"])
    same("not built: status and output", (status, out), (70, ""))
    tell(f"not built: says {err}", err.startswith("fed: not built\n") and "nothing is installed" in err)
    same("not built: files", found(root), [])


def words():
    for given in (["--hlep"], ["a/folder"], [""], [".."], [f"{place}/a", f"{place}/b"], ["--help", f"{place}/a"]):
        status, out, err = install(*given)
        same(f"words {given}: status and output", (status, out), (2, ""))
        tell(f"words {given}: says {err}", re.fullmatch("install: .*\n", err) is not None)
    same("DESTDIR without a slash: status", install(f"{place}/a", DESTDIR="staging")[0], 2)
    tell("words: something is installed", not os.path.exists(f"{place}/a"))
    status, out, err = install("--help")
    same("--help: status and faults", (status, err), (0, ""))
    same("--help: files", re.findall("^  PREFIX/(.*)$", out, re.M), list(FILES))


# ---- the manual

def members_in(page):
    """Gives the members that a page has as items, and those that it names in a row's text."""
    return re.findall(r"[a-z_]+", " ".join(re.findall(r"^(?:\.It )?\.?Ic (.*)$", text_of(page), re.M)))


def named_in(crate):
    """Gives the names that a crate's definitions read."""
    folder = f"{TOP}/crates/{crate}/specs"
    texts = [text_of(f"crates/{crate}/specs/{name}") for name in os.listdir(folder) if name.endswith(".antt")]
    return {name for text in texts for name in re.findall(r'codes "([a-z_]+)"', text)}


def literals(page):
    """Gives the texts that a page shows as they stand."""
    return [text.replace("\\e", "\\") for text in re.findall(r"^\.Bd -literal.*?\n(.*?)^\.Ed$", text_of(page), re.M | re.S)]


def usages():
    """Gives how the program says that it is called."""
    status, out, err = fed()
    same("no words: status and output", (status, out), (2, "words\n"))
    return re.findall("^fed: usage: (.*)$", err, re.M)


def synopsis():
    """Gives how the manual says that the program is called."""
    part = re.search(r"^\.Sh SYNOPSIS\n(.*?)^\.Sh", text_of("man/fed.1"), re.M | re.S)[1]
    calls = [re.sub(r"\n\.?|^\.", " ", call) for call in re.split(r"^\.Nm\n", part, flags=re.M)[1:]]
    plain = [re.sub(r"\b(Cm|Ar|No) ", "", call.replace("Fl Fl ", "--").replace("Oo ", "[").replace(" Oc", "]")) for call in calls]
    return [" ".join(["fed", *call.split()]) for call in plain]


def pages_are_sound():
    for page in PAGES:
        if shutil.which("mandoc"):
            same(f"mandoc on {page}", run(["mandoc", "-T", "lint", "-W", "warning", f"{TOP}/{page}"]), (0, "", ""))
        # that of man-db, which lets groff warn
        if shutil.which("groff") and shutil.which("man") and run(["man", "--version"])[0] == 0:
            status, _, err = run(["man", "--warnings", "-E", "UTF-8", "-l", "-Tutf8", f"{TOP}/{page}"], MANROFFSEQ="")
            same(f"man on {page}", (status, err), (0, ""))


def pages_say_what_is():
    same("the synopsis of fed(1)", synopsis(), usages())
    page = text_of("man/fed.1")
    same("what fed(1) says that it is", "fed: an " + re.search(r"^\.Nd (.*)$", page, re.M)[1], fed("--help")[1].split("\n")[0])
    headings = re.findall(r"^\.Ss (.*)$", page, re.M)
    same("the commands of fed(1)", re.findall(r"fed ([\w-]+)", " ".join(headings)), list(dict.fromkeys(call[0] for call in calls())))
    described = re.findall(r"Fl Fl ([\w-]+)", " ".join(re.findall(r"^\.It Fl.*$", page, re.M)))
    same("the options of fed(1)", sorted({f"--{it}" for it in described}), sorted({it for call in calls() for it in options_in(call)}))
    variables = re.findall(r'env::var\(rt, "(\w+)"\)', text_of("crates/fed/src/main.rt"))
    same("the variables of fed(1)", sorted(re.findall(r"^\.It Ev (\w+)$", page, re.M)), sorted(set(variables)))
    statuses = re.search(r"^\.Sh EXIT STATUS\n(.*?)^\.Sh", page, re.M | re.S)[1]
    said = re.search(r"^status(.*)", fed("--help")[1], re.M | re.S)[1]
    same("the statuses of fed(1)", re.findall(r"^\.It (\d)$", statuses, re.M), re.findall(r"(?:^|  )(\d)  ", said, re.M))
    same("the members of fed-config(5)", set(members_in("man/fed-config.5")), named_in("node_config"))
    # of a ring's words, those of its states and of the keys that are told of it aren't members
    ring = text_of("man/fed-ring.5")
    words_of = set(members_in("man/fed-ring.5")) | set(re.findall(r"dq(\w+)\\", ring))
    told = {"kid", "kty", "pub", "revoked"}
    same("the words of fed-ring(5)", words_of, named_in("key_ring") - told)


def examples_run():
    folder = folder_of("examples")
    *blocks, last = literals("man/fed.1")
    script = "set -eu\n" + "".join(blocks)
    status, out, err = run(["bash", "-c", script], folder=folder, PATH=f"{TOP}:{os.environ['PATH']}")
    same("the examples of fed(1): status and faults", (status, err), (0, ""))
    tell(f"the examples of fed(1) write {out}", re.fullmatch(r"valid https://rp\.example\n[\w-]{43}\n", out) is not None)
    same("the last example of fed(1)", last, "fed authority --config node.json --port 8300 --connections 1000000\n")
    with open(f"{folder}/node.ring", encoding="utf-8") as it:
        kept = it.read()
    keys = json.loads(kept)["keys"]
    same("the keys of the ring of the examples", [sorted(key) for key in keys], [["alg", "exp", "iat", "seeds", "state"]] * 2)
    shown = [shown_ring(key["seeds"], key["iat"], key["exp"]) for key in keys]
    same("the ring of the examples", kept, shown[0].replace("}]", "}," + json.dumps(keys[1], separators=(",", ":")) + "]"))


def shown_ring(seeds, begin, end):
    """Gives the ring that fed-ring(5) shows, with these seeds and moments."""
    text = literals("man/fed-ring.5")[0].replace("\n", "").replace("<96 hexadecimal digits>", seeds)
    return text.replace("1900000000", str(end)).replace("1800000000", str(begin))


def configuration_is_served():
    folder = folder_of("served")
    config = json.loads(literals("man/fed-config.5")[0])
    with open(f"{folder}/{config['ring']}", "w", encoding="utf-8") as it:
        it.write(shown_ring(f"{8:096x}", 1800000000, 1900000000))
    os.chmod(it.name, 0o600)
    with open(f"{folder}/node.json", "w", encoding="utf-8") as it:
        json.dump(config, it)
    port = str(free_port())
    words = ["authority", "--config", "node.json", "--port", port, "--connections", "1"]
    running = subprocess.Popen([FED, *words], cwd=folder, stdout=subprocess.PIPE, stderr=subprocess.PIPE, text=True)
    try:
        same("the example of fed-config(5): its list", answered(port, "/list?intermediate=true"), b'["https://im.example"]')
        out, err = running.communicate(timeout=PATIENCE)
        same("the example of fed-config(5): output and status", (out, running.returncode), ("served 1\n", 0))
        log = "".join(it for it in err.splitlines(True) if not it.startswith("fed: "))
        tell(f"the example of fed-config(5): its log {err}", re.fullmatch(r"\d{4}-\d\d-\d\dT\d\d:\d\d:\d\d\.\d{3}Z 127\.0\.0\.1:\d+ GET /list 200 \d+ \d+\n", log) is not None)
        tell(f"the example of fed-config(5): nothing is warned of {err}", "warning" not in err)
    finally:
        running.kill()
        running.wait()
    # each member, where it isn't of its form, is told by the name that the page has for it
    page = text_of("man/fed-config.5")
    main = page[: page.index(".Sh SUBORDINATES")]
    for member in re.findall(r"^\.It Ic (\w+)$", main, re.M):
        with open(f"{folder}/{member}.json", "w", encoding="utf-8") as it:
            json.dump({**config, member: 0}, it)
        status, out, err = fed("authority", "--config", f"{member}.json", "--port", port, "--connections", "1", folder=folder)
        same(f"without a good {member}: status and output", (status, out), (2, "input\n"))
        tell(f"without a good {member}: says {err}", re.search(rf"\b{member}\b", err.replace(f"{member}.json", "")) is not None)


def answered(port, target):
    """Gives what somebody who listens there answers, once it does."""
    end = time.time() + PATIENCE
    while time.time() < end:
        asked = http.client.HTTPConnection("127.0.0.1", int(port), timeout=PATIENCE)
        try:
            asked.request("GET", target)
            return asked.getresponse().read()
        except ConnectionRefusedError:
            time.sleep(0.05)
        finally:
            asked.close()
    return None


# ---- completion

def rows():
    table = {}
    for line in text_of("completions/words").split("\n"):
        if line and not line.startswith("#"):
            kind, *its = line.split()
            table.setdefault(kind, []).append(its)
    return table


def calls():
    """Gives the words of each call that the program says, without its input."""
    said = [re.sub(" < .*", "", it).split()[1:] for it in usages()]
    flags = next(it for it in said if "|" in it)
    return [it for it in said if it is not flags] + [[it] for it in flags if it != "|"]


def options_in(call):
    plain = [it.strip("[]") for it in call]
    return {plain[i]: plain[i + 1] for i in range(1, len(plain)) if plain[i].startswith("--")}


def told_values(*words):
    """Gives the values that the program says an option takes, where it is given another; what stands in brackets says what they mean."""
    return re.split(", | or ", re.sub(r" \([^)]*\)", "", re.search("takes (.*), and not x$", fed(*words)[2].strip())[1]))


def table_has_the_words():
    table, said = rows(), calls()
    same("calls", sorted(table["call"]), sorted(said))
    same("commands", [row[0] for row in table["command"]], list(dict.fromkeys(call[0] for call in said)))
    options = {option: value for call in said for option, value in options_in(call).items()}
    same("options", [row[0] for row in table["option"]], sorted(options))
    tell("a command or an option isn't described", all(len(row) > 1 for row in table["command"] + table["option"]))
    values = {row[0]: row[1:] for row in table["value"]}
    same("options with a file", sorted(it for it in values if values[it] == ["file"]), sorted(it for it in options if options[it] == "FILE"))
    wanted = {
        "--act": told_values("rotate", "--ring", "r", "--act", "x"),
        "--alg": told_values("keygen", "--ring", "r", "--at", "1", "--exp", "2", "--alg", "x"),
        "--typ": told_values("issue", "--ring", "r", "--typ", "x"),
        "--reason": told_values("rotate", "--ring", "r", "--act", "revoke", "--kid", "k", "--at", "1", "--reason", "x"),
        "--claims": told_values("show", "--claims", "x"),
        "--heed": told_values("resolve", "--config", "c", "--heed", "x"),
        "--stream": told_values("authority", "--config", "c", "--stream", "x"),
        "--strict": told_values("check-config", "--config", "c", "--strict", "x"),
    }
    same("values", {it: words for it, words in values.items() if words != ["file"]}, wanted)
    same("acts", values["--act"], [options_in(call)["--act"] for call in said if call[0] == "rotate"])


def files_are_made():
    folder = folder_of("made")
    same("completions/make", run([f"{TOP}/completions/make", folder]), (0, "", ""))
    same("completions/make: its files", found(folder), ["_fed", "fed.bash", "fed.fish"])
    for name in found(folder):
        with open(f"{folder}/{name}", encoding="utf-8") as it:
            tell(f"completions/{name} isn't what completions/make writes", it.read() == text_of(f"completions/{name}"))


def cases():
    """Gives words of a line whose last is completed, and what is to be offered."""
    said = calls()
    names = list(dict.fromkeys(call[0] for call in said))
    found = [([""], names), (["--"], ["--help", "--version"]), (["v"], ["verify"]), (["verify", ""], []), (["--help", ""], []), (["show", ""], ["--claims"])]
    found += [(["help", ""], [it for it in names if it[0] != "-"]), (["help", "ver"], ["verify"]), (["help", "verify", ""], [])]
    for call in said:
        options = options_in(call)
        every = {it for other in said if other[0] == call[0] for it in options_in(other)}
        if not options:
            continue
        found.append(([call[0], ""], sorted(every)))
        act = ["--act", options["--act"]] if "--act" in options else []
        left = sorted(set(options) - set(act))
        found.append(([call[0], *act, ""], left))
        found.append(([call[0], *act, "<", "no/such/fi"], []))
        for option in left:
            found.append(([call[0], *act, option, "1", "--"], [it for it in left if it != option]))
            found.append(([call[0], *act, option, "no/such/fi"], []))
        whole = [word for option in left for word in (option, "1")]
        found.append(([call[0], *whole, *act, ""], []))
    for option, *values in (row for row in rows()["value"] if row[1:] != ["file"]):
        command = next(call[0] for call in said if option in options_in(call))
        found.append(([command, option, ""], sorted(values)))
        found.append(([command, option, values[0][:-1]], [it for it in values if it.startswith(values[0][:-1])]))
    for option in (row[0] for row in rows()["value"] if row[1:] == ["file"]):
        command = next(call[0] for call in said if option in options_in(call))
        found.append(([command, option, "completions/fed."], ["completions/fed.bash", "completions/fed.fish"]))
    found.append((["check", "<", "completions/_"], ["completions/_fed"]))
    return found


def bash_completes():
    script = """
source completions/fed.bash
while IFS= read -r line; do
    mapfile -t COMP_WORDS < <(tr '\\t' '\\n' <<<"$line")
    COMP_CWORD=$((${#COMP_WORDS[@]} - 1))
    _fed
    (IFS=$'\\t'; echo "${COMPREPLY[*]}")
done
"""
    tried_lines = cases()
    status, out, err = run(["bash", "-c", script], "".join("\t".join(["fed", *line]) + "\n" for line, _ in tried_lines), TOP)
    same("bash: status and faults", (status, err), (0, ""))
    same("bash: lines", out.count("\n"), len(tried_lines))
    for (line, wanted), got in zip(tried_lines, out.split("\n")):
        same(f"bash: {line}", sorted(filter(None, got.split("\t"))), sorted(wanted))


def others_complete():
    """The other shells, where they are there."""
    if shutil.which("zsh"):
        same("zsh -n", run(["zsh", "-n", f"{TOP}/completions/_fed"]), (0, "", ""))
    if shutil.which("fish"):
        home = folder_of("fish")
        lines = [(line, wanted) for line, wanted in cases() if "no/such/fi" not in line and "<" not in line]
        asked = "".join(f"echo '>'; complete -C 'fed {' '.join(line)}'\n" for line, _ in lines)
        status, out, err = run(["fish", "--no-config", "-c", f"source completions/fed.fish\n{asked}"], folder=TOP, HOME=home)
        same("fish: status and faults", (status, err), (0, ""))
        answers = out.split(">\n")[1:]
        same("fish: lines", len(answers), len(lines))
        for (line, wanted), got in zip(lines, answers):
            same(f"fish: {line}", sorted(it.split("\t")[0] for it in got.split("\n") if it), sorted(wanted))


os.umask(0o022)
fed("--version")
ROWS = [
    below_a_prefix, below_a_staging_folder, taken_away, pages_named_are_installed, examples_are_sound, over_an_older_one, nothing_half_done,
    stopped_half_way, without_a_program, words, pages_are_sound, pages_say_what_is, examples_run, configuration_is_served, table_has_the_words,
    files_are_made, bash_completes, others_complete,
]
try:
    status = tried("install", ROWS)
finally:
    shutil.rmtree(place)
sys.exit(status)
