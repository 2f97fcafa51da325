#!/usr/bin/env python3
"""Prints when each key of the keyring on standard input expires, and what it may be used for. The certificate's self-signatures say
both.

    python3 expiry.py < keyring.asc

In each place, which is the primary key, a user ID or a subkey, only the newest self-signature counts (RFC 9580, 5.2.3.10).

- For a subkey it is the newest binding.
- For the primary key it is the newest direct key signature. In version 4 that often doesn't say it. Then it is the newest
  certification of a user ID that counts and says it. A user ID whose newest signature is its revocation doesn't count.

No signature is verified: the times are what the input says, whoever made it. Revocations of keys, and expiries of signatures, aren't
looked at."""

import datetime
import sys
from typing import Optional

import opgp

REVOCATION = 0x30  # of a user ID
KINDS = (0x10, 0x11, 0x12, 0x13, 0x18, 0x1F, REVOCATION)
USER_ID = 13


def newest(certificate: opgp.Certificate, keys: list[opgp.Key]) -> dict[Optional[int], opgp.Signature]:
    """The self-signature that counts in each place, by its component, or None for the primary key. It is the newest that belongs there,
    the last of several with one time. If the library makes its digest, that begins as the signature states."""
    found: dict[Optional[int], opgp.Signature] = {}
    for it in certificate.signatures:
        if it.kind not in KINDS or it.nested is not None or it.why_not not in (None, "hash") or it.is_bad or it.signer is None:
            continue
        if keys[it.signer].fingerprint == certificate.primary.fingerprint and it.created is not None:
            if it.component not in found or it.created >= (found[it.component].created or 0):
                found[it.component] = it
    return found


def about(key: opgp.Key, certificate: opgp.Certificate, found: dict[Optional[int], opgp.Signature]) -> list[opgp.Signature]:
    """The signatures that count for a key. If several say something, the first does."""
    if not key.is_primary:
        return [found[key.component]] if key.component in found else []
    certified = [found[it.component] for it in certificate.packets if it.kind == USER_ID and it.component in found]
    certified.sort(key=lambda it: it.created or 0, reverse=True)
    direct = [found[None]] if None in found else []
    return [it for it in direct + certified if it.kind != REVOCATION]


def line(key: opgp.Key, signatures: list[opgp.Signature]) -> str:
    """The fingerprint, the time, and the names of the flags."""
    until, flags = "never" if signatures else "unknown", "unknown"
    for seconds in [it.key_expires for it in signatures if it.key_expires][:1]:
        until = datetime.datetime.fromtimestamp(key.created + seconds, datetime.timezone.utc).strftime("%Y-%m-%dT%H:%M:%SZ")
    for said in [it.key_flags for it in signatures if it.key_flags is not None][:1]:
        flags = ",".join(it.name.lower() for it in opgp.KeyFlags if it in said and it.name) or "none"
    return f"{key.fingerprint.hex().upper()} expires {until} flags {flags}"


def main() -> None:
    """Ends with the fault if the keyring is refused."""
    with opgp.read(sys.stdin.buffer.read()) as keyring:
        keys = keyring.keys()
        for certificate in keyring.certificates():
            found = newest(certificate, keys)
            for key in certificate.keys:
                print(line(key, about(key, certificate, found)))


if __name__ == "__main__":
    main()
