#!/usr/bin/env python3
"""A bootstrap server (RFC 8572, section 7) over a folder, with the standard library alone.

    server.py ROOT

It answers get-bootstrapping-data with the artifacts of the folder `ROOT/serial/SERIAL`, and gives the files of
`ROOT/images` under `/images/NAME`. It listens on a free port of 127.0.0.1, which it prints first, until it is ended.
"""
import base64
import http.server
import json
import os
import re
import sys

OPERATION = "/restconf/operations/ietf-sztp-bootstrap-server:get-bootstrapping-data"
INPUT = "ietf-sztp-bootstrap-server:input"
OUTPUT = "ietf-sztp-bootstrap-server:output"
IMAGES = "/images/"
ARTIFACTS = ("conveyed-information", "owner-certificate", "ownership-voucher")
SERIAL = re.compile(r"[A-Za-z0-9_:+-][A-Za-z0-9_.:+-]{0,63}")


def artifacts(folder):
    """The artifacts that stand in a folder, in base64 by their names."""
    found = {}
    for name in ARTIFACTS:
        path = os.path.join(folder, name + ".cms")
        if os.path.isfile(path):
            with open(path, "rb") as file:
                found[name] = base64.b64encode(file.read()).decode()
    return found


def asks(body):
    """Whether a body is empty or has the operation's input."""
    if not body:
        return True
    try:
        value = json.loads(body)
    except ValueError:
        return False
    return isinstance(value, dict) and INPUT in value


class Handler(http.server.BaseHTTPRequestHandler):
    protocol_version = "HTTP/1.1"

    def do_POST(self):
        body = self.rfile.read(int(self.headers.get("Content-Length", 0)))
        serials = self.headers.get_all("Sztp-Serial-Number", [])
        if self.path != OPERATION:
            return self.reply(404)
        if len(serials) != 1 or not SERIAL.fullmatch(serials[0]) or not asks(body):
            return self.reply(400)
        found = artifacts(os.path.join(self.server.root, "serial", serials[0]))
        if ARTIFACTS[0] not in found:
            return self.reply(404)
        return self.reply(200, "application/yang-data+json", json.dumps({OUTPUT: found}).encode())

    def do_GET(self):
        name = self.path.removeprefix(IMAGES)
        path = os.path.join(self.server.root, "images", name)
        if not self.path.startswith(IMAGES) or not SERIAL.fullmatch(name) or not os.path.isfile(path):
            return self.reply(404)
        with open(path, "rb") as file:
            return self.reply(200, "application/octet-stream", file.read())

    def reply(self, status, kind="text/plain", body=b""):
        self.send_response(status)
        self.send_header("Content-Type", kind)
        self.send_header("Content-Length", str(len(body)))
        self.end_headers()
        self.wfile.write(body)


def main():
    if len(sys.argv) != 2:
        sys.exit(__doc__)
    with http.server.ThreadingHTTPServer(("127.0.0.1", 0), Handler) as server:
        server.root = sys.argv[1]
        print(server.server_port, flush=True)
        server.serve_forever()


if __name__ == "__main__":
    main()
