#!/usr/bin/env python3
"""The inputs of crates/cost and of the C programs.

input.py quiet RECORDING OUT                   a recording: the train type of RECORDING on a track without beacons, no button pressed
input.py join OUT RECORDING...                 one recording of all, from the first again, up to 10,000 samples
input.py pack CARD RECORDING ROUNDS SAMPLES    the input itself, on standard output: so many rounds of the first SAMPLES
"""

import sys

MOST = 10000


def recording(train, samples):
    body = samples[: 6 * MOST]
    return (6 + len(body)).to_bytes(4, "big") + bytes([1, train]) + body


def quiet(train):
    """Standing, then up to 140 km/h and held near it, with some wavering, so that no field is constant."""
    out = bytearray()
    speed, seed = 0, 1
    for _ in range(MOST):
        seed = (seed * 1103515245 + 12345) % 2**31
        if speed < 380:
            speed += seed >> 16 & 1
        else:
            speed += (seed >> 16) % 5 - 2
        out += speed.to_bytes(2, "big") + bytes([0, 0, 0, 1])
    return recording(train, bytes(out))


def main(words):
    if words[0] == "quiet":
        train = open(words[1], "rb").read()[5]
        open(words[2], "wb").write(quiet(train))
    elif words[0] == "join":
        rides = [open(name, "rb").read() for name in words[2:]]
        body = b"".join(ride[6:] for ride in rides)
        while len(body) < 6 * MOST:
            body += body
        open(words[1], "wb").write(recording(rides[0][5], body))
    elif words[0] == "pack":
        card = open(words[1], "rb").read()
        ride = open(words[2], "rb").read()
        body = ride[6 : 6 + 6 * int(words[4])]
        out = card[:49].ljust(49, b"\0") + int(words[3]).to_bytes(2, "big") + recording(ride[5], body)
        sys.stdout.buffer.write(out)


main(sys.argv[1:])
