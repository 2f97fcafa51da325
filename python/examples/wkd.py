#!/usr/bin/env python3
"""Writes the certificates for a mail address from the answer of a Web Key Directory: those with a user ID of that address. The answer
is certificates in bare octets (draft-koch-openpgp-webkey-service, 3.1), here from a file, a URL or standard input.

    python3 wkd.py alice@example.org [FILE or URL] > alice.gpg

Standard error has the fingerprint and the user IDs of each certificate that is written. No signature is verified: whoever made the
answer chose its user IDs. The limits are those for a stranger's keyring."""

import sys
import urllib.request

import opgp

MOST = 1 << 20  # octets of an answer
LIMITS = opgp.Limits(body=1 << 16, cert=MOST, input=MOST)


def address_of(user_id: str) -> str:
    """The mail address in a user ID, in small letters: behind a name, as in `Alice <alice@example.org>`, or alone."""
    _, begun, rest = user_id.rpartition("<")
    address = rest[:-1] if begun and rest.endswith(">") else user_id
    return address.lower() if "@" in address else ""


def answer_of(words: list[str]) -> bytes:
    """The answer that the words name. Raises ValueError if it is too long."""
    if not words:
        octets = sys.stdin.buffer.read(MOST + 1)
    else:
        with urllib.request.urlopen(words[0], timeout=60) if "://" in words[0] else open(words[0], "rb") as source:
            octets = source.read(MOST + 1)
    if len(octets) > MOST:
        raise ValueError(f"the answer has more than {MOST} octets")
    return octets


def main() -> int:
    """Ends with 1 if no certificate is for the address."""
    address, found = sys.argv[1].lower(), 0
    try:
        if "@" not in address:
            raise ValueError(f"{address!r} is no mail address")
        with opgp.read(answer_of(sys.argv[2:]), LIMITS, "binary") as keyring:
            for certificate in keyring.certificates():
                if address in map(address_of, certificate.user_ids):
                    found += 1
                    sys.stdout.buffer.write(keyring.certificate(certificate.number).write())
                    print(certificate.primary.fingerprint.hex().upper(), *map(repr, certificate.user_ids), file=sys.stderr)
    except (ValueError, OSError) as why:  # a fault; or there is no such answer
        print(why, file=sys.stderr)
        return 1
    if not found:
        print(f"no certificate for {address}", file=sys.stderr)
    return int(not found)


if __name__ == "__main__":
    sys.exit(main())
