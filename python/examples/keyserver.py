#!/usr/bin/env python3
"""Merges what a key server sent, armored text of any number of blocks, with your keyring, and writes the merged keyring in armor.
Standard error has a line for each new packet: what it is, and its certificate.

    python3 keyserver.py MINE < SENT > MERGED

What a key server sends says nothing of who made it: no signature is verified."""

import sys
from typing import Iterator

import opgp

SIGNATURE, PUBLIC_KEY, USER_ID, PUBLIC_SUBKEY, ATTRIBUTE = 2, 6, 13, 14, 17
Place = tuple[bytes, ...]


def placed(keyring: opgp.Keyring) -> Iterator[tuple[Place, str]]:
    """Each packet of the certificates, by its primary key, what it is on and its body, with its description."""
    for certificate in keyring.certificates():
        head = b""
        prints = {key.component: key.fingerprint for key in certificate.keys}
        for it in certificate.packets:
            if it.hang is None:  # a key, user ID or attribute, which others follow
                head = bytes([it.kind]) + it.body
            place = (certificate.primary.fingerprint, head, bytes([it.kind]), it.body)
            yield place, said(it, prints.get(it.component, b"").hex().upper())


def said(packet: opgp.Packet, fingerprint: str) -> str:
    """What a packet is; a key with its fingerprint."""
    if packet.kind == USER_ID:
        return f"user ID {packet.body.decode('utf-8', 'surrogateescape')!r}"
    if packet.kind in (PUBLIC_KEY, PUBLIC_SUBKEY):
        return f"{'certificate' if packet.kind == PUBLIC_KEY else 'subkey'} {fingerprint}"
    return {SIGNATURE: "signature", ATTRIBUTE: "user attribute"}.get(packet.kind, f"packet of type {packet.kind}")


def main() -> int:
    """Ends with 1 if one of the inputs is refused."""
    name = sys.argv[1]
    try:
        with open(name, "rb") as file:
            mine = opgp.read(file.read())
        name = "what was sent"
        sent = opgp.read(sys.stdin.buffer.read())
    except opgp.Fault as fault:
        print(f"{name}: {fault}", file=sys.stderr)
        return 1
    had = {place for place, _ in placed(mine)}
    merged = mine.joined(sent).merged()
    for place, what in placed(merged):
        if place not in had:
            print(f"new in {place[0].hex().upper()}: {what}", file=sys.stderr)
    sys.stdout.buffer.write(merged.write(armor=True))
    return 0


if __name__ == "__main__":
    sys.exit(main())
