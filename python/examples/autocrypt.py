#!/usr/bin/env python3
"""Prints the keys in the Autocrypt headers (autocrypt.org) of a mail on standard input: for each the address in the header, the
fingerprint and the user IDs. The limits are those for a stranger's certificate. No signature is verified.

    python3 autocrypt.py < mail"""

import base64
import email
import sys

import opgp

LIMITS = opgp.Limits(body=1 << 16, cert=1 << 20, input=1 << 20)


def attributes(header: str) -> dict[str, str]:
    """The attributes of a header, `name=value; name=value`, whose value may be broken into lines."""
    pairs = (it.partition("=") for it in header.split(";"))
    return {name.strip(): "".join(value.split()) for name, _, value in pairs}


def main() -> int:
    """Ends with 1 if a header has no certificate."""
    status = 0
    for header in email.message_from_binary_file(sys.stdin.buffer).get_all("Autocrypt", []):
        found = attributes(str(header))
        try:
            with opgp.read(base64.b64decode(found.get("keydata", ""), validate=True), LIMITS, "binary") as keyring:
                certificates = keyring.certificates()
            if not certificates:
                raise ValueError("no certificate")
            for it in certificates:
                print(found.get("addr"), it.primary.fingerprint.hex().upper(), *map(repr, it.user_ids))
        except ValueError as why:  # of base64, a fault, or none
            print(f"{found.get('addr')}: {why}", file=sys.stderr)
            status = 1
    return status


if __name__ == "__main__":
    sys.exit(main())
