#!/usr/bin/env python3
"""Writes 1,000 varied makeCredential and getAssertion requests as canonical CBOR, without the command byte.

    bench/cbor_messages.py ROUNDS

Each request is preceded by its length, two bytes, little-endian. The first byte of the output is ROUNDS.
"""
import random
import sys


def encode_head(major, n):
    for info, size in ((None, 0), (24, 1), (25, 2), (26, 4), (27, 8)):
        if info is None:
            if n < 24:
                return bytes([32 * major + n])
        elif n < 256**size:
            return bytes([32 * major + info]) + n.to_bytes(size, "big")
    raise ValueError(f"{n} does not fit in 8 bytes")


def encode(value):
    if value is True:
        return b"\xf5"
    if value is False:
        return b"\xf4"
    if isinstance(value, int):
        return encode_head(0, value) if value >= 0 else encode_head(1, -1 - value)
    if isinstance(value, bytes):
        return encode_head(2, len(value)) + value
    if isinstance(value, str):
        return encode_head(3, len(value.encode())) + value.encode()
    if isinstance(value, list):
        return encode_head(4, len(value)) + b"".join(map(encode, value))
    pairs = sorted((encode(k), encode(v)) for k, v in value.items())
    return encode_head(5, len(pairs)) + b"".join(k + v for k, v in pairs)


def make_text(rng, least, most):
    letters = "abcdefghijklmnopqrstuvwxyz-."
    if rng.random() < 0.2:
        letters += "äöüéñ"
    return "".join(rng.choice(letters) for _ in range(rng.randint(least, most)))


def make_descriptor(rng):
    entry = {"id": rng.randbytes(rng.choice((16, 32, 48, 64))), "type": "public-key"}
    if rng.random() < 0.5:
        entry["transports"] = rng.sample(["usb", "nfc", "ble", "internal", "hybrid"], rng.randint(1, 3))
    return entry


def make_registration_parameters(rng):
    algorithms = rng.sample([-7, -8, -35, -36, -37, -257, -258], rng.randint(1, 7))
    return {
        1: rng.randbytes(32),
        2: {"id": make_text(rng, 8, 30), "name": make_text(rng, 5, 30)},
        3: {
            "id": rng.randbytes(rng.randint(8, 64)),
            "name": make_text(rng, 5, 40),
            "displayName": make_text(rng, 5, 40),
        },
        4: [{"alg": alg, "type": "public-key"} for alg in algorithms],
        7: {"rk": True} if rng.random() < 0.5 else {"rk": False, "uv": False},
    }


def make_sign_in_parameters(rng):
    return {1: make_text(rng, 8, 30), 2: rng.randbytes(32), 5: {"up": True}}


def make_request(rng):
    """Returns a request of 430 to 470 bytes, filled up with descriptors."""
    while True:
        made = rng.random() < 0.5
        value = make_registration_parameters(rng) if made else make_sign_in_parameters(rng)
        listed = 5 if made else 3
        while len(encode(value)) < 430:
            value.setdefault(listed, []).append(make_descriptor(rng))
        if len(encode(value)) <= 470:
            return encode(value)


def main():
    rng = random.Random(2021)
    messages = [make_request(rng) for _ in range(1000)]
    out = sys.stdout.buffer
    out.write(bytes([int(sys.argv[1])]))
    for message in messages:
        out.write(len(message).to_bytes(2, "little") + message)


main()
