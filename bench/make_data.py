#!/usr/bin/env python3
"""Makes the keys and signatures that check.sh times, with Python's hashlib alone.

Each folder of data/ gets an HSS public key of one level, a signature, and the number of SHA-256
compressions that checking it takes by RFC 8554. The message is zero bytes.
"""
import hashlib
import os

MIB = 1024 * 1024
# name: (LMS type, height, LM-OTS type, digit width, chains, checksum shift, message size)
CASES = {
    "h5w8": (5, 5, 4, 8, 34, 0, 55),
    "h10w4": (6, 10, 3, 4, 67, 4, 55),
    "h10w1": (6, 10, 1, 1, 265, 7, 55),
    "h5w8-64mib": (5, 5, 4, 8, 34, 0, 64 * MIB),
    "h5w8-1gib": (5, 5, 4, 8, 34, 0, 1024 * MIB),
}


def u32(n):
    return n.to_bytes(4, "big")


def u16(n):
    return n.to_bytes(2, "big")


def blocks(length):
    """How many compressions a message of this length takes."""
    return (length + 9 + 63) // 64


def digest(data):
    return hashlib.sha256(data).digest()


def digits(width, data, count):
    bits = "".join(f"{byte:08b}" for byte in data)
    return [int(bits[width * i:width * i + width], 2) for i in range(count)]


def make(name):
    tree_code, height, ots_code, width, chains, shift, size = CASES[name]
    seed, tree = digest(b"seed of " + name.encode()), digest(b"tree of " + name.encode())[:16]
    q = 3
    last = 2**width - 1

    def hashed(number, tag, rest):
        return digest(tree + u32(number) + u16(tag) + rest)

    def run(leaf, chain, first, end, value):
        for step in range(first, end):
            value = hashed(leaf, chain, bytes([step]) + value)
        return value

    def secret(leaf, chain):
        return hashed(leaf, chain, b"\xff" + seed)

    nodes = {}
    for leaf in range(2**height):
        ends = b"".join(run(leaf, chain, 0, last, secret(leaf, chain)) for chain in range(chains))
        nodes[2**height + leaf] = hashed(2**height + leaf, 0x8282, hashed(leaf, 0x8080, ends))
    for number in range(2**height - 1, 0, -1):
        nodes[number] = hashed(number, 0x8383, nodes[2 * number] + nodes[2 * number + 1])

    randomizer = secret(q, 0xFFFD)
    message = hashlib.sha256(tree + u32(q) + u16(0x8181) + randomizer)
    for start in range(0, size, MIB):
        message.update(bytes(min(MIB, size - start)))
    signed = message.digest()
    missing = sum(last - one for one in digits(width, signed, 256 // width))
    signed += u16(missing << shift)
    numbers = digits(width, signed, chains)
    values = [run(q, chain, 0, number, secret(q, chain)) for chain, number in enumerate(numbers)]
    path, number = [], 2**height + q
    while number > 1:
        path.append(nodes[number ^ 1])
        number //= 2
    public = u32(1) + u32(tree_code) + u32(ots_code) + tree + nodes[1]
    signature = (u32(0) + u32(q) + u32(ots_code) + randomizer + b"".join(values)
                 + u32(tree_code) + b"".join(path))
    compressions = (blocks(22 + 32 + size) + sum(last - n for n in numbers) + blocks(22 + 32 * chains)
                    + blocks(22 + 32) + height * blocks(22 + 64))

    folder = os.path.join(os.path.dirname(os.path.abspath(__file__)), "data", name)
    os.makedirs(folder, exist_ok=True)
    for part, content in (("public", public), ("signature", signature),
                          ("compressions", f"{compressions}\n".encode()), ("size", f"{size}\n".encode())):
        with open(os.path.join(folder, part), "wb") as file:
            file.write(content)


for name in CASES:
    make(name)
