#!/usr/bin/env python3
"""Makes what a source without any key can send to cost a device time and memory, with the standard library alone.

    hostile.py OUT        the folders OUT/extensions, OUT/members and OUT/circle, and OUT/identity.json of the device
    hostile.py --serve    answers each request with a body of 6 MiB, on a free port of 127.0.0.1, which it prints first

`extensions` has the evidence of the device, whose messages carry one more certificate each: of nearly 1 MiB, with as many
extensions as fit, no two alike. `members` has conveyed information that nobody signed, of nearly 1 MiB: a list of
objects of one member. The body of 6 MiB is such a list, too.

`circle` has a voucher whose message carries 16 certificates of the name of the device's maker, each with a key of its own of
eight levels of width 8. Nobody made these keys: a signature of any bytes leads to some root under any tree (RFC 8554,
Algorithm 4a), and that root is then said to be the tree's. So all of them have one signature of one public key below, and each
certificate is signed under each of the 16 keys. All have one serial number too, so each of the message's four signers may be
any of them.
"""
import http.server
import os
import sys

sys.path.insert(0, os.path.join(os.path.dirname(os.path.abspath(__file__)), "..", "demo"))
import evidence as made

SERIAL = "HOSTILE1"
ARTIFACT = 1_048_576
BODY = 6_291_456
LEVELS = 8
MEMBERS = 16
SIGNERS = 4
EXTENSION = made.identifier("2.5.29.99")


def objects(size):
    """JSON of at most so many bytes: an object of one list of objects, as long as fits."""
    front, one, back = b'{"x":[{"":0}', b',{"":0}', b"]}"
    return front + one * ((size - len(front) - len(back)) // len(one)) + back


def certificate(size):
    """A certificate of at most so many bytes with extensions of distinct identifiers, which a key of zeros signs."""
    key = made.sequence(made.HSS_LMS, made.bit_string(made.item(made.OCTET_STRING, bytes(60))))
    name = made.common_name("Hostile")
    times = made.sequence(made.item(made.UTC_TIME, made.NOT_BEFORE), made.item(made.UTC_TIME, made.NOT_AFTER))
    fixed = [made.context(0, made.integer(2)), made.integer(9), made.HSS_LMS, name, times, name, key]
    left, number, found = size - 1500, 0, []
    while True:
        kind = made.item(made.IDENTIFIER, b"\x2a\x03" + made.base128(number))
        one = made.sequence(kind, made.item(made.OCTET_STRING))
        if len(one) > left:
            break
        left -= len(one)
        number += 1
        found.append(one)
    body = made.sequence(*fixed, made.context(3, made.sequence(*found)))
    return number, made.sequence(body, made.HSS_LMS, made.bit_string(bytes(1000)))


def one_level(word):
    """The bytes of a signature under a tree of one level, which nobody made."""
    def noise(number):
        return made.sha256(word, made.u32(number))
    values = b"".join(map(noise, range(made.CHAINS + 1)))
    siblings = b"".join(map(noise, range(100, 100 + made.HEIGHT)))
    return made.u32(0) + made.u32(made.OTS_TYPE) + values + made.u32(made.LMS_TYPE) + siblings


def public_of(tree, signature, message):
    """The public key of one level under whose tree this is a signature of the message."""
    one_time, siblings = signature[4:4 + made.OTS_BYTES], signature[8 + made.OTS_BYTES:]
    node = made.leaf_node(tree, 0, made.ots_candidate(tree, 0, message, one_time))
    return made.u32(made.LMS_TYPE) + made.u32(made.OTS_TYPE) + tree + made.climb(tree, 0, node, siblings)


class Circle:
    """What all the keys have in common: the levels below the top, of which the last alone is a real key."""

    def __init__(self):
        self.last = made.Key(b"circle")
        below, front = self.last.public()[4:], self.last.public()[4:]
        for level in range(LEVELS - 2, 0, -1):
            signature = one_level(b"level %d" % level)
            below = public_of(made.sha256(b"tree %d" % level)[:16], signature, below)
            front = below + signature + front
        self.top = one_level(b"top")
        self.below = below
        self.front = made.u32(LEVELS - 1) + self.top + front

    def public(self, number):
        """One of the keys."""
        return made.u32(LEVELS) + public_of(made.sha256(b"key %d" % number)[:16], self.top, self.below)

    def sign(self, message):
        return self.front + self.last.sign(message)[4:]


class Member:
    """A certificate of the circle, and who signs with its key."""

    def __init__(self, circle, name, number):
        self.name = self.issuer = name
        self.serial = 100
        self.public = circle.public(number)
        self.sign = circle.sign
        body = made.to_be_signed(self, self, authority=True)
        self.certificate = made.sequence(body, made.HSS_LMS, made.bit_string(circle.sign(body)))


def write(folder, files):
    os.makedirs(folder, exist_ok=True)
    for name, data in files.items():
        with open(os.path.join(folder, name), "wb") as file:
            file.write(data)


def make(out):
    content = made.information(None, None, None, "hostile")
    maker, root, owner = made.parties(SERIAL, content)
    files = made.files(SERIAL, content, maker, root, owner)
    identity = files.pop("identity.json")
    del files["anchor.der"]
    count, heavy = certificate(ARTIFACT - 8192)
    vouched = made.voucher(SERIAL, root.certificate)
    write(out, {"identity.json": identity})
    write(os.path.join(out, "extensions"), {
        **files,
        "ownership-voucher.cms": made.signed_message(maker, made.VOUCHER_JSON, vouched, [heavy, maker.certificate]),
        "owner-certificate.cms": made.bag_of([heavy, owner.certificate, root.certificate]),
    })
    unsigned = made.sequence(made.CONVEYED_JSON, made.context(0, made.item(made.OCTET_STRING, objects(ARTIFACT - 64))))
    write(os.path.join(out, "members"), {"conveyed-information.cms": unsigned})
    circle = Circle()
    members = [Member(circle, maker.name, number) for number in range(MEMBERS)]
    each = [member.certificate for member in members]
    wrapped = made.VOUCHER_JSON + made.context(0, made.item(made.OCTET_STRING, vouched))
    signers = b"".join(made.signer_info(members[0], made.VOUCHER_JSON, vouched) for _ in range(SIGNERS))
    write(os.path.join(out, "circle"), {
        **files,
        "ownership-voucher.cms": made.signed_data(3, made.SHA_256, wrapped, each, signers),
    })
    print(count)


class Handler(http.server.BaseHTTPRequestHandler):
    protocol_version = "HTTP/1.1"

    def do_POST(self):
        self.rfile.read(int(self.headers.get("Content-Length", 0)))
        body = objects(BODY)
        self.send_response(200)
        self.send_header("Content-Type", "application/yang-data+json")
        self.send_header("Content-Length", str(len(body)))
        self.send_header("Connection", "close")
        self.end_headers()
        self.wfile.write(body)
        self.close_connection = True

    def log_message(self, *_):
        pass


def serve():
    server = http.server.ThreadingHTTPServer(("127.0.0.1", 0), Handler)
    print(server.server_address[1], flush=True)
    server.serve_forever()


if __name__ == "__main__":
    serve() if sys.argv[1:] == ["--serve"] else make(sys.argv[1])
