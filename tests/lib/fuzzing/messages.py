"""The rules of docs/rules/HTTP.md and AUTHORITY.md once more: which bytes are a request, what a node answers them, and which page the bytes of an
answer are."""

import json
import re
from urllib.parse import unquote_to_bytes

TOKEN = rb"[!#$%&'*+.^_`|~0-9A-Za-z-]+"
FIELD = rb"(" + TOKEN + rb"):([\t -~\x80-\xff]*)\r?\n"
REQUEST = re.compile(rb"(?:\r?\n)*(" + TOKEN + rb") ([!-~\x80-\xff]+) HTTP/1\.[01]\r?\n((?:" + FIELD + rb")*)\r?\n")
RESPONSE = re.compile(rb"(?:\r?\n)*HTTP/1\.[01] ([0-9]{3})(?: [\t -~\x80-\xff]*)?\r?\n((?:" + FIELD + rb")*)\r?\n")
CHUNK = re.compile(rb"([0-9A-Fa-f]{1,16})[ \t]*(?:;[^\r\n]*)?\r\n")
HEAD, LINES, BODY, PAGE, CHUNKS = 16384, 64, 300000, 262144, 1048576
REASONS = {200: b"OK", 400: b"Bad Request", 403: b"Forbidden", 404: b"Not Found", 409: b"Conflict", 500: b"Internal Server Error",
           503: b"Service Unavailable"}
REFUSALS = {
    "request": (400, b"invalid_request", b"not a request of this node"), "entity": (404, b"not_found", b"no such entity"),
    "anchor": (404, b"invalid_trust_anchor", b"no such trust anchor"), "policy": (400, b"invalid_metadata", b"policies refuse the metadata"),
    "chain": (400, b"invalid_trust_chain", b"no valid trust chain"), "fault": (503, b"temporarily_unavailable", b"a fetch failed"),
    "budget": (500, b"server_error", b"search budget ended"), "stranger": (403, b"invalid_client", b"not sealed by a control key"),
}
MEDIA = {f"{typ}+jwt": b"application/%s+jwt" % typ.encode() for typ in ("entity-statement", "jwk-set", "trust-mark-status-response", "resolve-response")}


def fields(lines):
    """The names, in lower case, and the values of header lines."""
    return [(name.lower(), value.strip(b"\t ")) for name, value in re.findall(FIELD, lines)]


def values(found, name):
    return [value for its, value in found if its == name]


def end_of_head(data):
    """Where the head ends, or None."""
    at = data.find(b"\r\n\r\n", 0, HEAD)
    return None if at < 0 else at + 4


# ---- requests

class Request:
    def __init__(self, method, target, body):
        self.method, self.body = method, body
        self.path, _, self.query = target.partition(b"?")


def request(data):
    """The request that the bytes begin with and how many bytes it has, "none" where they aren't one however they go on, or "ended"."""
    end = end_of_head(data)
    if end is None:
        return ("none", HEAD) if len(data) >= HEAD else ("ended", len(data))
    read = head_of_request(data[:end])
    if read is None:
        return "none", end
    method, target, length = read
    if length > len(data) - end:
        return "ended", len(data)
    return Request(method, target, data[end : end + length]), end + length


def head_of_request(head):
    """The method, the target and the length of the body that is read, or None."""
    form = REQUEST.fullmatch(head)
    if form is None or form[1] not in (b"GET", b"POST") or not form[2].startswith(b"/") or not is_utf8(form[2]):
        return None
    found = fields(form[3])
    lengths = values(found, b"content-length")
    if len(found) > LINES or values(found, b"transfer-encoding") or len(lengths) > 1:
        return None
    if lengths and not (re.fullmatch(rb"[0-9]{1,6}", lengths[0]) and int(lengths[0]) <= BODY):
        return None
    if form[1] == b"POST":
        return (form[1], form[2], int(lengths[0])) if lengths else None
    return form[1], form[2], 0


def is_utf8(data):
    try:
        data.decode()
    except UnicodeDecodeError:
        return False
    return True


def parameters(data):
    """The names and values of a web form."""
    pairs = [piece.replace(b"+", b" ").partition(b"=") for piece in data.split(b"&") if piece]
    return [tuple(unquote_to_bytes(part).decode("utf-8", "replace") for part in (name, value)) for name, _, value in pairs]


# ---- what a node answers

def answer(status, media, body):
    head = b"HTTP/1.1 %d %s\r\nContent-Type: %s\r\nContent-Length: %d\r\nConnection: close\r\n\r\n"
    return head % (status, REASONS[status], media, len(body)) + body


def refusal(word):
    status, error, description = REFUSALS[word]
    return answer(status, b"application/json", b'{"error":"%s","error_description":"%s"}' % (error, description))


class Node:
    """An authority of this configuration. A signed answer is told by its type and by what it is about."""

    def __init__(self, config):
        self.config = config
        self.base = re.sub(r"^https?://[^/]*", "", config["entity_id"]).removesuffix("/").encode()
        self.below = {it["entity_id"]: it for it in config.get("subordinates", [])}

    def answers(self, data):
        """The bytes of the answer to these bytes, or the type of the signed one, and how many bytes are read for it."""
        read, length = request(data)
        if read == "ended":
            return b"", length
        if read == "none" or not read.path.startswith(self.base):
            return refusal("request"), length
        path = read.path[len(self.base):]
        if read.method == b"POST":
            return self.posted(path, read), length
        given = parameters(read.query)
        if path == b"/.well-known/openid-federation":
            return ("entity-statement+jwt", None), length
        if path == b"/historical-keys":
            return ("jwk-set+jwt", None), length
        if path == b"/fetch":
            return self.fetched([value for name, value in given if name == "sub"]), length
        return (self.listed(given) if path == b"/list" else self.resolved(path, given)), length

    def resolved(self, path, given):
        """What it answers at a path that isn't one of an authority's."""
        return refusal("request")

    def posted(self, path, read):
        marks = [value for name, value in parameters(read.body) if name == "trust_mark"]
        if path != b"/trust-mark-status" or len(marks) != 1:
            return refusal("request")
        return "trust-mark-status-response+jwt", marks[0]

    def fetched(self, subjects):
        if len(subjects) != 1:
            return refusal("request")
        return ("entity-statement+jwt", subjects[0]) if subjects[0] in self.below else refusal("entity")

    def listed(self, given):
        types = [value for name, value in given if name == "entity_type"]
        asked = {name: [value for its, value in given if its == name] for name in ("trust_marked", "intermediate", "trust_mark_type")}
        if any(len(held) > 1 for held in asked.values()):
            return refusal("request")
        if any(value not in ("true", "false") for name in ("trust_marked", "intermediate") for value in asked[name]):
            return refusal("request")
        found = [name for name, it in self.below.items()
                 if (not types or set(types) & set(it.get("entity_types", [])))
                 and (asked["trust_marked"] != ["true"] or it.get("mark_types"))
                 and (not asked["trust_mark_type"] or asked["trust_mark_type"][0] in it.get("mark_types", []))
                 and (asked["intermediate"] != ["true"] or it.get("intermediate", False))]
        return answer(200, b"application/json", json.dumps(found, separators=(",", ":")).encode())


# ---- pages

def page(data):
    """The document of an answer whose end came behind these bytes, or the word for what it is in place of one."""
    end = end_of_head(data)
    form = RESPONSE.fullmatch(data[:end]) if end else None
    if form is None:
        return "garbled"
    found, body = fields(form[2]), data[end:]
    if len(found) > LINES:
        return "garbled"
    if form[1] != b"200":
        return "refusal"
    codings = [value.lower() for value in values(found, b"transfer-encoding")]
    lengths = values(found, b"content-length")
    if any(value.lower() != b"identity" for value in values(found, b"content-encoding")) or codings not in ([], [b"chunked"]):
        return "garbled"
    if len(lengths) > 1 or (lengths and (codings or not re.fullmatch(rb"[0-9]{1,19}", lengths[0]))):
        return "garbled"
    if codings:
        return unchunked(body)
    length = int(lengths[0]) if lengths else len(body)
    if length > PAGE:
        return "too long"
    return body[:length] if length <= len(body) else "garbled"


def unchunked(data):
    at, body, size = 0, b"", 0
    while True:
        line = CHUNK.match(data, at)
        if line is None:
            # what came of a line, up to the first byte with which it isn't one
            begun = re.compile(rb"[0-9A-Fa-f]{0,16}").match(data, at).end()
            if begun > at:
                begun = re.compile(rb"[ \t]*(?:;[^\r\n]*)?\r?").match(data, begun).end()
            return "too long" if begun > CHUNKS else "garbled"
        length = int(line[1], 16)
        size += length
        at = line.end()
        if size > PAGE or at > CHUNKS:
            return "too long"
        if length == 0:
            return body
        body += data[at : at + length]
        if data[at + length : at + length + 2] != b"\r\n":
            return "too long" if min(len(data), at + length) > CHUNKS else "garbled"
        at += length + 2
