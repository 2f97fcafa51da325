#!/usr/bin/env python3
"""Prints the keys of the keyring in a file, or on standard input, as `opgp list` does.

    python3 keys.py [FILE]"""

import sys

import opgp


def line(key: opgp.Key) -> str:
    """The line of a key."""
    kind = "pub" if key.is_primary else "sub"
    names = f"{key.fingerprint.hex()} {key.key_id.hex()}".upper()
    return f"{kind} v{key.version} alg {key.algorithm} created {key.created} {names}"


def main() -> int:
    """Ends with 1 if the input is refused."""
    with open(sys.argv[1], "rb") if sys.argv[1:] else sys.stdin.buffer as source:
        octets = source.read()
    try:
        with opgp.read(octets) as keyring:
            for key in keyring.keys():
                print(line(key))
    except opgp.Fault as fault:
        print(fault, file=sys.stderr)
        return 1
    return 0


if __name__ == "__main__":
    sys.exit(main())
