#!/usr/bin/env python3
"""Makes what the maker and the owner of a device give it to onboard by (RFC 8572), with the standard library alone.

    evidence.py OUT SERIAL [--image FILE --uri URI.. --os-version VERSION] [--configuration TEXT]

The folder OUT gets the three artifacts of a bootstrapping folder: `conveyed-information.cms`, `owner-certificate.cms`
and `ownership-voucher.cms`. It also gets `identity.json`, of which a device of this serial number is made, and
`anchor.der`, the certificate that the device trusts. The device runs `os` in version `1`.

Nothing here is secret, and the same words always give the same bytes: each key comes from a fixed word, the serial
number and the information. So two runs that sign different messages have different keys, and no leaf ever signs two.
"""
import argparse
import base64
import hashlib
import json
import os
import sys

# ---- numbers and hashes


def u32(number):
    return number.to_bytes(4, "big")


def u16(number):
    return number.to_bytes(2, "big")


def sha256(*parts):
    return hashlib.sha256(b"".join(parts)).digest()


# ---- one-time signatures (RFC 8554, section 4): LMOTS_SHA256_N32_W8

OTS_TYPE = 4
CHAINS = 34
LAST = 255
OTS_BYTES = 4 + 32 + 32 * CHAINS

D_PBLC, D_MESG, D_LEAF, D_INTR = 0x8080, 0x8181, 0x8282, 0x8383


def hashed(tree, number, tag, *rest):
    """The hash under a tree's identifier, the number of a leaf or node, and the tag of its use."""
    return sha256(tree, u32(number), u16(tag), *rest)


def run(tree, leaf, chain, first, end, value):
    """The value after the steps from `first` to `end` of a chain."""
    for step in range(first, end):
        value = hashed(tree, leaf, chain, bytes([step]), value)
    return value


def secret(seed, tree, leaf, number):
    """The secret value of this number (RFC 8554, appendix A)."""
    return hashed(tree, leaf, number, b"\xff", seed)


def digits(tree, leaf, randomizer, message):
    """The digits of a message, each a byte, with those of their checksum."""
    digest = hashed(tree, leaf, D_MESG, randomizer, message)
    return digest + u16(sum(LAST - digit for digit in digest))


def ots_public(seed, tree, leaf):
    ends = [run(tree, leaf, chain, 0, LAST, secret(seed, tree, leaf, chain)) for chain in range(CHAINS)]
    return hashed(tree, leaf, D_PBLC, *ends)


def ots_sign(seed, tree, leaf, message):
    randomizer = secret(seed, tree, leaf, 0xFFFD)
    values = [run(tree, leaf, chain, 0, digit, secret(seed, tree, leaf, chain))
              for chain, digit in enumerate(digits(tree, leaf, randomizer, message))]
    return u32(OTS_TYPE) + randomizer + b"".join(values)


def ots_candidate(tree, leaf, message, signature):
    """The public key that a one-time signature leads to."""
    randomizer, values = signature[4:36], signature[36:]
    ends = [run(tree, leaf, chain, digit, LAST, values[32 * chain:32 * chain + 32])
            for chain, digit in enumerate(digits(tree, leaf, randomizer, message))]
    return hashed(tree, leaf, D_PBLC, *ends)


# ---- trees (RFC 8554, section 5): LMS_SHA256_M32_H5

LMS_TYPE = 5
HEIGHT = 5
LEAVES = 2**HEIGHT


def leaf_node(tree, leaf, public):
    return hashed(tree, LEAVES + leaf, D_LEAF, public)


def inner_node(tree, number, left, right):
    return hashed(tree, number, D_INTR, left, right)


def build(seed, tree):
    """All nodes of a tree by their numbers; the root is number 1."""
    nodes = {LEAVES + leaf: leaf_node(tree, leaf, ots_public(seed, tree, leaf)) for leaf in range(LEAVES)}
    for number in range(LEAVES - 1, 0, -1):
        nodes[number] = inner_node(tree, number, nodes[2 * number], nodes[2 * number + 1])
    return nodes


def path(nodes, leaf):
    """The siblings from a leaf's upwards."""
    return b"".join(nodes[((LEAVES + leaf) >> level) ^ 1] for level in range(HEIGHT))


def climb(tree, leaf, node, siblings):
    """The root to which a leaf's node leads."""
    number = LEAVES + leaf
    for level in range(HEIGHT):
        sibling = siblings[32 * level:32 * level + 32]
        pair = (sibling, node) if number % 2 else (node, sibling)
        number //= 2
        node = inner_node(tree, number, *pair)
    return node


# ---- keys and signatures of one level (RFC 8554, section 6)

HSS_BYTES = 4 + 4 + OTS_BYTES + 4 + 32 * HEIGHT


class Key:
    """A key of one level, which signs each message with the next of its leaves."""

    def __init__(self, word):
        self.seed = sha256(b"seed ", word)
        self.tree = sha256(b"tree ", word)[:16]
        self.nodes = build(self.seed, self.tree)
        self.next = 0

    def public(self):
        return u32(1) + u32(LMS_TYPE) + u32(OTS_TYPE) + self.tree + self.nodes[1]

    def sign(self, message):
        leaf = self.next
        self.next += 1
        one_time = ots_sign(self.seed, self.tree, leaf, message)
        return u32(0) + u32(leaf) + one_time + u32(LMS_TYPE) + path(self.nodes, leaf)


def verifies(public, message, signature):
    """Whether this is a signature of the message under a key of one level and these types."""
    if len(public) != 60 or public[:12] != u32(1) + u32(LMS_TYPE) + u32(OTS_TYPE):
        return False
    tree, root = public[12:28], public[28:]
    leaf, one_time = int.from_bytes(signature[4:8], "big"), signature[8:8 + OTS_BYTES]
    types = signature[:4] + one_time[:4] + signature[8 + OTS_BYTES:12 + OTS_BYTES]
    if len(signature) != HSS_BYTES or types != u32(0) + u32(OTS_TYPE) + u32(LMS_TYPE) or leaf >= LEAVES:
        return False
    node = leaf_node(tree, leaf, ots_candidate(tree, leaf, message, one_time))
    return climb(tree, leaf, node, signature[12 + OTS_BYTES:]) == root


# ---- DER (X.690)

BOOLEAN, INTEGER, BIT_STRING, OCTET_STRING, IDENTIFIER = 0x01, 0x02, 0x03, 0x04, 0x06
UTF8_STRING, UTC_TIME, SEQUENCE, SET = 0x0C, 0x17, 0x30, 0x31
TRUE = b"\xff"


def item(tag, *contents):
    content = b"".join(contents)
    size = len(content)
    if size < 128:
        return bytes([tag, size]) + content
    length = size.to_bytes((size.bit_length() + 7) // 8, "big")
    return bytes([tag, 0x80 + len(length)]) + length + content


def context(number, *contents):
    """A constructed item of this number in its context."""
    return item(0xA0 + number, *contents)


def sequence(*contents):
    return item(SEQUENCE, *contents)


def integer(number):
    return item(INTEGER, number.to_bytes(number.bit_length() // 8 + 1, "big"))


def bit_string(content):
    return item(BIT_STRING, b"\0", content)


def base128(number):
    """An arc of an identifier: seven bits a byte, the top bit set in all but the last."""
    groups = [number & 127]
    while number > 127:
        number >>= 7
        groups.append(number & 127 | 128)
    return bytes(reversed(groups))


def identifier(text):
    first, second, *rest = map(int, text.split("."))
    return item(IDENTIFIER, *map(base128, [40 * first + second, *rest]))


DATA = identifier("1.2.840.113549.1.7.1")
SIGNED_DATA = identifier("1.2.840.113549.1.7.2")
CONTENT_TYPE = identifier("1.2.840.113549.1.9.3")
MESSAGE_DIGEST = identifier("1.2.840.113549.1.9.4")
VOUCHER_JSON = identifier("1.2.840.113549.1.9.16.1.40")
CONVEYED_JSON = identifier("1.2.840.113549.1.9.16.1.43")
HSS_LMS = sequence(identifier("1.2.840.113549.1.9.16.3.17"))
SHA_256 = sequence(identifier("2.16.840.1.101.3.4.2.1"))
COMMON_NAME = identifier("2.5.4.3")
KEY_IDENTIFIER = identifier("2.5.29.14")
KEY_USAGE = identifier("2.5.29.15")
BASIC_CONSTRAINTS = identifier("2.5.29.19")

# ---- certificates (RFC 5280, RFC 8708)

NOT_BEFORE, NOT_AFTER = b"200101000000Z", b"400101000000Z"

# digitalSignature, and with it keyCertSign: one byte of bits behind the number of those that are unused
SIGNS, SIGNS_CERTIFICATES = b"\x07\x80", b"\x02\x84"


def common_name(text):
    return sequence(item(SET, sequence(COMMON_NAME, item(UTF8_STRING, text.encode()))))


def extension(kind, critical, value):
    return sequence(kind, item(BOOLEAN, TRUE) if critical else b"", item(OCTET_STRING, value))


def extensions(public, authority):
    constraints = item(BOOLEAN, TRUE) if authority else b""
    usage = SIGNS_CERTIFICATES if authority else SIGNS
    return sequence(
        extension(BASIC_CONSTRAINTS, True, sequence(constraints)),
        extension(KEY_USAGE, True, item(BIT_STRING, usage)),
        extension(KEY_IDENTIFIER, False, item(OCTET_STRING, sha256(public)[:20])),
    )


def to_be_signed(subject, issuer, authority):
    return sequence(
        context(0, integer(2)),
        integer(subject.serial),
        HSS_LMS,
        common_name(issuer.name),
        sequence(item(UTC_TIME, NOT_BEFORE), item(UTC_TIME, NOT_AFTER)),
        common_name(subject.name),
        sequence(HSS_LMS, bit_string(item(OCTET_STRING, subject.public))),
        context(3, extensions(subject.public, authority)),
    )


class Party:
    """A name with a key and the certificate that another party, or itself, issued for it."""

    def __init__(self, word, name, serial, issuer=None):
        self.name = name
        self.serial = serial
        self.key = Key(word)
        self.public = self.key.public()
        self.signed = []
        body = to_be_signed(self, issuer or self, authority=issuer is None)
        self.certificate = sequence(body, HSS_LMS, bit_string((issuer or self).sign(body)))
        self.issuer = (issuer or self).name

    def sign(self, message):
        """A signature of the message, which is kept beside it for the check at the end."""
        signature = self.key.sign(message)
        self.signed.append((message, signature))
        return signature


# ---- messages (RFC 5652, RFC 8708)


def attribute(kind, value):
    return sequence(kind, item(SET, value))


def attributes(kind, content):
    """The signed attributes of a content, without their tag."""
    return b"".join(sorted([
        attribute(CONTENT_TYPE, kind),
        attribute(MESSAGE_DIGEST, item(OCTET_STRING, sha256(content))),
    ]))


def signer_info(signer, kind, content):
    covered = attributes(kind, content)
    return sequence(
        integer(1),
        sequence(common_name(signer.issuer), integer(signer.serial)),
        SHA_256,
        context(0, covered),
        HSS_LMS,
        item(OCTET_STRING, signer.sign(item(SET, covered))),
    )


def signed_data(version, algorithms, content, certificates, signers):
    return sequence(SIGNED_DATA, context(0, sequence(
        integer(version),
        item(SET, algorithms),
        sequence(content),
        context(0, *certificates),
        item(SET, signers),
    )))


def signed_message(signer, kind, content, certificates):
    wrapped = kind + context(0, item(OCTET_STRING, content))
    return signed_data(3, SHA_256, wrapped, certificates, signer_info(signer, kind, content))


def bag_of(certificates):
    """A message that only carries certificates."""
    return signed_data(1, b"", DATA, certificates, b"")


# ---- contents (RFC 8366, RFC 8572)


def compact(value):
    return json.dumps(value, separators=(",", ":")).encode()


def base64_text(data):
    return base64.b64encode(data).decode()


def voucher(serial, pinned):
    return compact({"ietf-voucher:voucher": {
        "assertion": "verified",
        "created-on": "2020-01-01T00:00:00Z",
        "domain-cert-revocation-checks": False,
        "expires-on": "2040-01-01T00:00:00Z",
        "pinned-domain-cert": base64_text(pinned),
        "serial-number": serial,
    }})


def boot_image(image, uris, version):
    return {
        "os-version": version,
        "download-uri": uris,
        "image-verification": [{
            "hash-algorithm": "ietf-sztp-conveyed-info:sha-256",
            "hash-value": sha256(image).hex(":"),
        }],
    }


def information(image, uris, version, configuration):
    parts = {}
    if image is not None:
        parts["boot-image"] = boot_image(image, uris, version)
    if configuration is not None:
        parts["configuration"] = base64_text(configuration.encode())
    return compact({"ietf-sztp-conveyed-info:onboarding-information": parts})


def identity(serial, anchor):
    members = {"serial": serial, "os-name": "os", "os-version": "1", "anchors": [base64_text(anchor)]}
    return json.dumps(members).encode() + b"\n"


# ---- a run


def parties(serial, content):
    """The maker, the owner's root and the owner, whose keys are for this run alone."""
    word = sha256(serial.encode(), b"\0", content)
    maker = Party(b"maker " + word, "Maker", 1)
    root = Party(b"root " + word, "Owner Root", 2)
    owner = Party(b"owner " + word, "Owner", 3, issuer=root)
    return maker, root, owner


def files(serial, content, maker, root, owner):
    """The files by their names."""
    vouched = voucher(serial, root.certificate)
    return {
        "anchor.der": maker.certificate,
        "identity.json": identity(serial, maker.certificate),
        "ownership-voucher.cms": signed_message(maker, VOUCHER_JSON, vouched, [maker.certificate]),
        "owner-certificate.cms": bag_of([owner.certificate, root.certificate]),
        "conveyed-information.cms": signed_message(owner, CONVEYED_JSON, content, []),
    }


def check(party):
    """Ends the run where a signature of the party's fails, or passes for another message."""
    for text, signature in party.signed:
        if not verifies(party.public, text, signature) or verifies(party.public, text + b"\0", signature):
            sys.exit(f"a signature of {party.name} is wrong")


def words():
    parser = argparse.ArgumentParser(description="Makes what a device is onboarded by.")
    parser.add_argument("out", metavar="OUT", help="the folder to write to")
    parser.add_argument("serial", metavar="SERIAL", help="the device's serial number")
    parser.add_argument("--image", metavar="FILE", help="the image to install")
    parser.add_argument("--uri", metavar="URI", nargs="+", help="where the image is given")
    parser.add_argument("--os-version", metavar="VERSION", help="the version that the image is of")
    parser.add_argument("--configuration", metavar="TEXT", help="the configuration to commit")
    given = parser.parse_args()
    if len({given.image is None, given.uri is None, given.os_version is None}) > 1:
        parser.error("an image has its file, its URIs and its version")
    return given


def main():
    given = words()
    image = None
    if given.image is not None:
        with open(given.image, "rb") as file:
            image = file.read()
    content = information(image, given.uri, given.os_version, given.configuration)
    all_parties = parties(given.serial, content)
    made = files(given.serial, content, *all_parties)
    for party in all_parties:
        check(party)
    os.makedirs(given.out, exist_ok=True)
    for file_name, data in made.items():
        with open(os.path.join(given.out, file_name), "wb") as file:
            file.write(data)


if __name__ == "__main__":
    main()
