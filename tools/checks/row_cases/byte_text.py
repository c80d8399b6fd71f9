"""Bytes as a text writes them."""

import re

PIECE = re.compile(r"'(?P<text>[^']*)'|(?P<pairs>(?:[0-9A-Fa-f]{2})+)(?:\*(?P<times>[0-9]+))?|(?P<bracket>[\[\]])")


class Malformed(Exception):
    """A table that is out of form."""


def check(data):
    """The check of the bytes, high byte first: CRC-CCITT, begun with 0."""
    crc = 0
    for byte in data:
        crc ^= byte << 8
        for _ in range(8):
            crc = (crc << 1 ^ (0x1021 if crc & 0x8000 else 0)) & 0xFFFF
    return crc.to_bytes(2, "big")


def bytes_of(text):
    """The bytes of pieces with spaces between them: 'text'; pairs of digits, for example 0a0d; these several times, for
    example 00*154; and brackets, whose bytes are followed by their check."""
    data, begun = bytearray(), []
    for word in re.findall(r"'[^']*'|[\[\]]|[^\s\[\]]+", text):
        piece = PIECE.fullmatch(word)
        if not piece:
            raise Malformed(f"no bytes: {word}")
        if piece["text"] is not None:
            data += piece["text"].encode()
        elif piece["pairs"]:
            data += bytes.fromhex(piece["pairs"]) * int(piece["times"] or 1)
        elif word == "[":
            begun.append(len(data))
        elif begun:
            data += check(data[begun.pop():])
        else:
            raise Malformed("a ] without its [")
    if begun:
        raise Malformed("a [ without its ]")
    return bytes(data)
