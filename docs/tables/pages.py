"""The pages of `fed help`, as crates/cli_help writes them, taken apart: from them come the synopsis and the commands of fed(1), the table of
README.md, and the head of each command in docs/COMMANDS.md."""

import re
import textwrap

SOURCES = ["answer_pages", "key_pages", "node_pages"]
# the column at which the text of a part begins
BEGIN = 9


def text_of(top, name):
    with open(f"{top}/crates/cli_help/src/{name}.rt", encoding="utf-8") as it:
        return it.read()


def literals(top, name):
    return [it.replace('\\"', '"').replace("\\\\", "\\") for it in re.findall(r'&\[u8\] =\s+b"((?:[^"\\]|\\.)*)";', text_of(top, name), re.S)]


def overview(top):
    """The calls, in their order, and a sentence for each command."""
    text = literals(top, "overview")[0]
    # a call that is too long for its line goes on in the next, further in
    calls = [line[7:] for line in re.sub(r"\n {8,}(?! )", " ", text.split("\n\n")[1]).split("\n")]
    said = re.findall(r"^([a-z-]+)\s+(.*)$", text.split("\n\n")[2], re.M)
    return [call.removeprefix("fed ") for call in calls], dict(said)


def rows_of(lines):
    """The rows of a part: a name and what is said of it, and sentences that stand alone, whose name is empty."""
    firsts = [line for line in lines if line[BEGIN] != " "]
    columns = [at for at in range(BEGIN + 2, 40) if any(len(line) > at and line[at - 1] == " " != line[at] for line in firsts)]

    def so(column):
        return sum(len(line) <= column or (line[column - 1] == " " != line[column]) for line in firsts)

    continued = [len(line) - len(line.lstrip()) for line in lines if line[BEGIN] == " "]
    def apart(column):
        return sum(line[column - 2 : column] == "  " for line in firsts)

    column = continued[0] if continued else max(columns, key=lambda at: (so(at), apart(at), -at))
    rows = []
    for line in lines:
        if line[BEGIN] == " ":
            rows[-1][1].append(line.strip())
        elif len(line) > column and (line[column - 1] != " " or line.endswith(".")):
            rows.append(["", [line.strip()]])
        else:
            rows.append([line[BEGIN:column].strip(), [line[column:].strip()] if len(line) > column else []])
    return [(name, " ".join(said)) for name, said in rows]


class Page:
    """The page of one command."""

    def __init__(self, text):
        head, does, rest = text.split("\n\n", 2)
        self.calls = [line.removeprefix("fed ") for line in head.split("\n")]
        self.verb = self.calls[0].split(" ")[0]
        self.does = " ".join(does.split("\n"))
        parts, name = {}, None
        for line in rest.rstrip("\n").split("\n"):
            if line[0] != " ":
                name = line.split(" ")[0]
                parts[name] = []
                line = " " * BEGIN + line[BEGIN:]
            parts[name].append(line)
        arguments = parts["argument" if "argument" in parts else "options"]
        self.arguments = [] if arguments == [" " * BEGIN + "none"] else rows_of(arguments)
        self.input = self.joined(parts["input"])
        self.output = rows_of(parts["output"]) if len(parts["output"]) > 1 and parts["output"][0][BEGIN:] != "the page" else [("", self.joined(parts["output"]))]
        if self.verb == "show":
            self.output = self.shown(parts["output"])
        self.status = re.findall(r"(\d) (.*?)(?=, \d |$)", self.joined(parts["status"]))
        self.example = "\n".join(line[BEGIN:] for line in parts["example"])

    @staticmethod
    def joined(lines):
        return " ".join(line.strip() for line in lines)

    def shown(self, lines):
        """The output of `show`, which begins with a sentence."""
        at = next(at for at, line in enumerate(lines) if line[BEGIN:].startswith("refused"))
        return [("", self.joined(lines[:at])), *rows_of(lines[at:])]


def pages(top):
    """Every page, by its command, in the order of the overview."""
    found = {it.verb: it for name in SOURCES for it in map(Page, literals(top, name))}
    return {verb: found[verb] for verb in dict.fromkeys(call.split(" ")[0] for call in overview(top)[0]) if verb in found}


# ---- the manual

def sentences(text):
    """Text as lines of mdoc, each sentence on lines of its own."""
    text, _, page = text.partition("man 5 ")
    out = []
    for sentence in re.split(r"(?<=[^.][.!?])\s+(?=[A-Z])", text.rstrip("; ")):
        out += textwrap.wrap(sentence, 80, break_long_words=False, break_on_hyphens=False)
    return "".join(f"{line.replace(chr(92), chr(92) + 'e')}\n" for line in out) + (f"(see\n.Xr {page} 5 ) .\n".replace(" 5 ) .", " 5 )") if page else "")


def words_of(call):
    """A call, or an option with its value, as words of a macro of mdoc."""
    out = []
    for word in call.split():
        opened, closed = "Oo " if word.startswith("[") else "", " Oc" if word.endswith("]") else ""
        word = word.strip("[]")
        if word.startswith("--"):
            out.append(f"{opened}Fl Fl {word[2:]}{closed}")
        elif word == "<":
            out.append(f"No {word}")
        else:
            out.append(f"{'Ar' if word.isupper() else 'Cm'} {word}{closed}")
    return " ".join(out)


def synopsis(top):
    parts = []
    for call in overview(top)[0]:
        verb, _, rest = call.partition(" ")
        if verb.startswith("--"):
            parts.append(f".Nm\n.Fl Fl {call[2:].replace(' --', ' Fl Fl ')}\n")
        elif rest.startswith("<"):
            parts.append(f".Nm\n.Cm {verb} {words_of(rest)}\n")
        else:
            parts.append(f".Nm\n.Cm {verb}\n" + (f".{words_of(rest)}\n" if rest else ""))
    return "".join(parts)


def named(name):
    """A row of an output: what is written, or what kind of it."""
    plain = not name or name in ("a line", "lines")
    return f".It {name or 'Output'}\n" if plain else f".It Ql {name}\n".replace("{", "\\&{")


def commands(top):
    """The commands of fed(1), each with its arguments, its input and what it writes."""
    parts = []
    for page in pages(top).values():
        rows = [f".It {words_of(name)}\n{sentences(said)}" for name, said in page.arguments]
        if page.input != "none is read":
            rows.append(f".It Input\n{sentences(page.input)}")
        rows += [f"{named(name)}{sentences(said)}" for name, said in page.output if name or len(page.output) == 1 or page.output[0][0] == ""]
        last = "".join(f".Pp\n{sentences(said)}" for name, said in page.output[1:] if not name)
        parts.append(f".Ss fed {page.verb}\n{sentences(page.does)}.Bl -tag -width Ds\n{''.join(rows)}.El\n{last}")
    return "".join(parts)


# ---- documents

def wrapped(text):
    return "\n".join(textwrap.wrap(text, 140, break_long_words=False, break_on_hyphens=False))


def table(top):
    """The table of README.md: each call, and what it does."""
    calls, says = overview(top)
    out, before = ["| Call | What it does |", "|---|---|"], None
    for call in calls:
        verb = call.split(" ")[0]
        shown = ", ".join(f"`fed {it}`" for it in call.split(" | "))
        said = says.get(verb, "every command on one screen; the version, the commit and the target of the build")
        out.append(f"| {shown} | {'the same' if verb == before else said} |")
        before = verb
    return "\n".join(out) + "\n"


def heads(top):
    """By command, how it is called, what it does, and its arguments, for docs/COMMANDS.md."""
    found = {}
    for page in pages(top).values():
        calls = [f"`fed {call}`\n" for call in page.calls]
        parts = [calls[0] if len(calls) == 1 else "".join(f"- {call}" for call in calls), wrapped(page.does) + "\n"]
        if page.arguments:
            rows = (f"| `{name}` | {said.replace('man 5 fed-config', '[CONFIG.md](CONFIG.md)')} |\n" for name, said in page.arguments)
            parts.append("| Argument | What it is |\n|---|---|\n" + "".join(rows))
        parts.append(wrapped(f"**Input**: {page.input}.") + "\n")
        found[page.verb] = "\n".join(parts)
    return found


# ---- files

HAND = "[//]: # (what stands above is made by docs/tables/make)\n"


def files(top):
    """The three files with what comes of the pages in its place, by their paths."""
    def read(path):
        with open(f"{top}/{path}", encoding="utf-8") as it:
            return it.read()

    manual = re.sub(r"(?<=^\.Sh SYNOPSIS\n).*?(?=^\.Sh DESCRIPTION)", lambda _: synopsis(top), read("man/fed.1"), flags=re.M | re.S)
    manual = re.sub(r"(?<=^\.Sh COMMANDS\n).*?(?=^\.Ss fed --help)", lambda _: commands(top), manual, flags=re.M | re.S)
    readme = re.sub(r"(?<=^## Commands\n\n)(\|.*\n)+", lambda _: table(top), read("README.md"), flags=re.M)
    page = read("docs/COMMANDS.md")
    for verb, head in heads(top).items():
        page = re.sub(rf"(?<=^## fed {verb}\n\n).*?(?={re.escape(HAND)})", lambda _, head=head: f"{head}\n", page, count=1, flags=re.M | re.S)
    return {"man/fed.1": manual, "README.md": readme, "docs/COMMANDS.md": page}
