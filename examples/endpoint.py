#!/usr/bin/env python3
"""A provider's endpoint for explicit registration (OpenID Federation 1.0 section 12.2), over `fed register`.

    endpoint.py PORT CONFIG ANCHOR

It listens on 127.0.0.1 until it is ended. What is posted is handed to `fed register` as it came: the entity configuration of a relying party
(application/entity-statement+jwt), or its chain (application/trust-chain+json). FED names the program, if it isn't `fed`.
"""

import http.server
import json
import os
import subprocess
import sys

TYPES = "application/entity-statement+jwt", "application/trust-chain+json"
LONGEST = 4 << 20
PATIENCE = 300


def answer(config, anchor, posted):
    """Gives the HTTP status, the media type and the body."""
    call = [os.environ.get("FED", "fed"), "register", "--config", config, "--anchor", anchor]
    try:
        done = subprocess.run(call, input=posted, stdout=subprocess.PIPE, timeout=PATIENCE, check=False)
    except subprocess.TimeoutExpired:
        return refused(503, "temporarily_unavailable", "no answer in time")
    said = done.stdout.decode().strip()
    if done.returncode == 0:
        return 200, "application/explicit-registration-response+jwt", said.encode()
    if done.returncode == 7:
        return refused(503, "temporarily_unavailable", "a superior couldn't be asked")
    if done.returncode not in (1, 9) or said == "refused NoAnchor":
        return refused(500, "server_error", "the provider can't register")
    word = {"refused Form": "invalid_request", "refused NoType": "invalid_metadata"}.get(said, "invalid_trust_chain")
    return refused(400, word, said or "the search for a chain met its bound")


def refused(status, error, description):
    return status, "application/json", json.dumps({"error": error, "error_description": description}).encode()


class Endpoint(http.server.BaseHTTPRequestHandler):
    def do_POST(self):  # pylint: disable=invalid-name
        length = self.headers.get("Content-Length", "")
        if self.headers.get_content_type() not in TYPES or not length.isdecimal() or int(length) > LONGEST:
            status, media, body = refused(400, "invalid_request", "a configuration or a chain is wanted")
        else:
            status, media, body = answer(*sys.argv[2:], self.rfile.read(int(length)))
        self.send_response(status)
        self.send_header("Content-Type", media)
        self.send_header("Content-Length", str(len(body)))
        self.end_headers()
        self.wfile.write(body)


if __name__ == "__main__":
    if len(sys.argv) != 4:
        sys.exit(__doc__)
    http.server.ThreadingHTTPServer(("127.0.0.1", int(sys.argv[1])), Endpoint).serve_forever()
