#!/usr/bin/env python3
"""Has other programs verify by opgp-sopv, opgp-sqv and opgp-gpgv, as their users would: git verify-tag, verify-commit and log, apt-get update over
a repository in a folder, dpkg-source, dpkg's module for OpenPGP, uscan's, dscverify, and debsig-verify. Each must believe what is good and
believed, and nothing else.

Usage: tests/bindings/clients.py [--program FILE] [--only PART]

opgp-verify is built as `make verifier` builds it, unless it is named. What is signed is made here, of this day, by
tests/lib/openpgp_signers.py. Where
gpgv, sqv, sqop and rsopv are installed, they are asked the same: of good signatures they say the same, and where one of gpgv and sqv doesn't
believe a signature, no name does. Nothing of the machine's own git, apt and gpg is read or written, and nothing of the network. What isn't
here is said on standard error. The last line counts what was tried.
"""

import argparse
import base64
import glob
import gzip
import hashlib
import io
import os
import resource
import shutil
import subprocess
import sys
import tarfile
import tempfile

sys.dont_write_bytecode = True
sys.path.insert(0, f"{sys.path[0]}/../lib")

import model  # noqa: E402
import names  # noqa: E402
import openpgp_signers as signers  # noqa: E402
from document_cases import BORN, DAY, DOCUMENT, MADE, NOW, clock, digits, iso  # noqa: E402
from openpgp_maker import number, subpacket  # noqa: E402

SECONDS = 120  # for one run
passed = failed = 0
ROOM = None


def verdict(name, holds, why=""):
    global passed, failed
    passed, failed = passed + bool(holds), failed + (not holds)
    if not holds:
        print(f"tests/bindings/clients.py: {name}: FAILED {why}"[:2500], file=sys.stderr)


def left_out(what):
    print(f"tests/bindings/clients.py: left out, since it isn't here: {what}", file=sys.stderr)


def kept(name, octets):
    path = f"{ROOM}/{name}"
    os.makedirs(os.path.dirname(path), exist_ok=True)
    with open(path, "wb") as it:
        it.write(octets)
    return path


def run(*words, given=b"", env=None, **how):
    """The end of a run in an environment of its own."""
    own = {"PATH": os.environ["PATH"], "LC_ALL": "C.UTF-8", "HOME": f"{ROOM}/home", "GNUPGHOME": f"{ROOM}/home", **(env or {})}
    return subprocess.run(words, input=given, capture_output=True, check=False, timeout=SECONDS, env=own, **how)


def canonical(octets):
    return octets.replace(b"\r\n", b"\n").replace(b"\n", b"\r\n")


class Signer:
    """How a document is signed, and what is then found: the packets over some octets, and the keyring."""

    def __init__(self, title, is_good, ring, *signing, of=None):
        self.title, self.is_good, self.ring, self.signing, self.of = title, is_good, ring, signing, of

    def over(self, octets):
        return b"".join(it(octets) for it in self.signing)

    def message(self, octets):
        """A cleartext message, whose signatures are over a text (7)."""
        octets = octets.removesuffix(b"\n")
        return signers.message(octets, *(it(canonical(octets), 1) for it in self.signing))


def those():
    """Of each kind one."""
    key, second, other, sub = (signers.ed25519(name, BORN) for name in ("one", "second 0", "other", "sub"))
    name = b"Archive One <one@example.org>"
    ring, two = signers.certificate(key, name), signers.certificate(second, b"Second 0")

    def by(signer, made=MADE, *subpackets, change=lambda octets: octets, **how):
        return lambda octets, kind=0: signers.over(signer, change(octets), made, *subpackets, **{"kind": kind, **how})

    good, good_too = by(key), by(second)
    bad = by(second, change=lambda octets: octets + b"x")
    bound = signers.certificate(key, name, signers.subkey(key, sub, BORN), signs=False)
    yield Signer("good", True, ring, good, of=key)
    yield Signer("good, over text", True, ring, by(key, kind=1, change=canonical), of=key)
    yield Signer("good, by a subkey", True, bound, by(sub), of=key)
    yield Signer("absent", False, ring, by(other))
    yield Signer("changed", False, ring, by(key, change=lambda octets: octets[:-1]))
    for title, made, reason in (("revoked", NOW - 50 * DAY, 2), ("revoked later", NOW - DAY, 2), ("retired later", NOW - DAY, 3)):
        yield Signer(title, False, signers.certificate(key, name, front=signers.revocation(key, made, reason)), good)
    for title, days in (("expired", 380), ("expired later", 395)):
        yield Signer(title, False, signers.certificate(key, name, subpackets=[subpacket(9, number(4, days * DAY))]), good)
    yield Signer("lapsed", False, ring, by(key, MADE, subpacket(3, number(4, DAY))))
    yield Signer("of the future", False, ring, by(key, NOW + 3 * DAY))
    yield Signer("without flags", False, signers.certificate(key, name, signs=False), good)
    yield Signer("by an unbound subkey", False, ring + signers.packet(14, sub.body), by(sub))
    yield Signer("of another type", False, ring, by(key, kind=0x10))
    yield Signer("with SHA-1", False, ring, by(key, hash=2))
    yield Signer("good and good", True, ring + two, good, good_too, of=key)
    yield Signer("good and absent", None, ring, good, by(other), of=key)
    yield Signer("absent and good", None, ring, by(other), good, of=key)
    revoked = signers.certificate(second, b"Second 0", front=signers.revocation(second, NOW - 50 * DAY))
    yield Signer("good and revoked", None, ring + revoked, good, good_too, of=key)
    expired = signers.certificate(second, b"Second 0", subpackets=[subpacket(9, number(4, 380 * DAY))])
    yield Signer("expired and good", None, ring + expired, good_too, good, of=key)
    yield Signer("good and bad", None, ring + two, good, bad, of=key)
    yield Signer("bad and good", None, ring + two, bad, good, of=key)


# ---- git


def object_of(folder, kind, octets):
    ended = run("git", "-C", folder, "hash-object", "-t", kind, "-w", "--stdin", given=octets)
    if ended.returncode:
        raise ValueError(ended.stderr)
    return ended.stdout.decode().strip()


def with_git():
    """Tags and commits."""
    if not shutil.which("git"):
        left_out("git")
        return
    folder = f"{ROOM}/git"
    run("git", "init", "-q", folder)
    tree = run("git", "-C", folder, "mktree").stdout.decode().strip()
    who = f"A <a@example.org> {MADE} +0000"
    for it in those():
        of_commit = f"tree {tree}\nauthor {who}\ncommitter {who}\n"
        said = "\n\nA message\nin two lines\n"
        block = model.armor(it.over(f"{of_commit}{said[1:]}".encode()), b"SIGNATURE").decode().rstrip("\n")
        commit = object_of(folder, "commit", f"{of_commit}gpgsig {block.replace(chr(10), chr(10) + ' ')}{said}".encode())
        front = f"object {commit}\ntype commit\ntag v1\ntagger {who}\n\nA tag\n".encode()
        tag = object_of(folder, "tag", front + model.armor(it.over(front), b"SIGNATURE"))
        run("git", "-C", folder, "update-ref", "refs/tags/v1", tag)
        env = {"OPGP_KEYRING": kept("ring", it.ring)}
        is_good = bool(it.is_good) and len(it.signing) == 1  # git takes one signature alone
        base = ["git", "-C", folder, "-c", f"gpg.program={ROOM}/opgp-gpgv"]
        for words in (["verify-tag", "v1"], ["verify-tag", "--raw", "v1"], ["verify-commit", commit], ["tag", "--verify", "v1"]):
            ended = run(*base, *words, env=env)
            verdict(f"git {words[0]}, {it.title}", (ended.returncode == 0) == is_good, ended)
            ended = run(*base, *words)
            is_told = b"no keyring" in ended.stderr or "--raw" in words
            verdict(f"git {words[0]} without a keyring, {it.title}", ended.returncode != 0 and is_told, ended)
        for level, holds in (("undefined", is_good), ("marginal", False), ("fully", False)):
            ended = run(*base, "-c", f"gpg.minTrustLevel={level}", "verify-tag", "v1", env=env)
            verdict(f"git verify-tag, trust {level}, {it.title}", (ended.returncode == 0) == holds, ended)
        letter = {"absent": "E", "changed": "B", "revoked": "R", "revoked later": "R", "retired later": "R", "expired": "Y", "expired later": "Y", "lapsed": "X"}
        wanted = "U" if is_good else letter.get(it.title)
        # git ends itself where it is to show the trust in a signature that isn't good.
        ended = run(*base, "log", "-1", f"--format=%G?|{'%GT' if is_good else ''}|%GP|%GS", commit, env=env)
        told = ended.stdout.decode().strip().split("|")
        fits = ended.returncode == 0 and (told[0] == wanted if wanted else told[0] not in ("G", "U"))
        verdict(f"git log, {it.title}", fits, ended)
        if is_good:
            verdict(f"git log's names, {it.title}", told[1:] == ["undefined", digits(it.of.fingerprint), "Archive One <one@example.org>"], told)


# ---- apt


def repository(folder, it):
    """A repository, signed so beside its Release."""
    packages = b"Package: nothing\nVersion: 1\nArchitecture: all\nFilename: nothing.deb\nSize: 1\nSHA256: " + b"0" * 64 + b"\n"
    files = {"main/binary-amd64/Packages": packages, "main/binary-amd64/Packages.gz": gzip.compress(packages, mtime=0)}
    lines = ["Origin: Test", "Label: Test", "Suite: stable", "Codename: stable", f"Date: {clock('%a, %d %b %Y %H:%M:%S UTC', NOW - 60)}",
             "Architectures: amd64", "Components: main", "SHA256:", *(f" {hashlib.sha256(octets).hexdigest()} {len(octets)} {path}" for path, octets in files.items())]
    release = "".join(f"{line}\n" for line in lines).encode()
    for path, octets in {**files, "Release": release, "Release.gpg": model.armor(it.over(release), b"SIGNATURE")}.items():
        kept(f"{folder}/dists/stable/{path}", octets)
    return f"{ROOM}/{folder}"


def updated(folder, signer, program, trusted="/dev/null"):
    """The end of apt-get update, and whether it kept the list of packages. The signer is a keyring, or a fingerprint in the trusted ones."""
    state = f"{ROOM}/{folder} state"
    for path in ("lists/partial", "cache/archives/partial", "etc"):
        os.makedirs(f"{state}/{path}")
    source = f"deb [signed-by={signer} arch=amd64] copy:{ROOM}/{folder} stable main\n"
    kept(f"{folder} state/etc/sources.list", source.encode())
    kept(f"{folder} state/status", b"")
    options = {
        "Dir::Etc::sourcelist": f"{state}/etc/sources.list", "Dir::Etc::sourceparts": "/dev/null", "Dir::Etc::trusted": "/dev/null",
        "Dir::Etc::trustedparts": trusted, "Dir::State": state, "Dir::State::lists": f"{state}/lists", "Dir::State::status": f"{state}/status",
        "Dir::Cache": f"{state}/cache", "Dir::Etc::preferencesparts": "/dev/null", "APT::Sandbox::User": "root", "APT::Key::GPGVCommand": program,
        "APT::Architecture": "amd64", "APT::Architectures": "amd64", "APT::Update::Post-Invoke-Success::": "true", "Acquire::Languages": "none",
        "Dir::Bin::Methods::sqv": "",
    }  # fmt: skip
    words = [word for name, value in options.items() for word in ("-o", f"{name}={value}")]
    ended = run("apt-get", *words, "update", env={"APT_CONFIG": "/dev/null"})
    return ended, any("_Packages" in name for name in os.listdir(f"{state}/lists"))


def with_apt():
    """apt-get update: Release and Release.gpg, by opgp-gpgv."""
    if not shutil.which("apt-get"):
        left_out("apt-get")
        return
    # apt believes a good signature beside one whose key is absent or isn't to be believed, and none beside a bad one.
    more = {"good and absent": True, "absent and good": True, "good and revoked": True, "expired and good": True, "good and bad": False, "bad and good": False}
    for order, it in enumerate(those()):
        is_good = more.get(it.title, it.is_good)
        folder = f"apt {order}".replace(" ", "-")
        repository(folder, it)
        for form in ("gpg", "asc"):
            ring = kept(f"ring-{order}.{form}", it.ring if form == "gpg" else model.armor(it.ring))
            shutil.rmtree(f"{ROOM}/{folder} state", ignore_errors=True)
            ended, has_list = updated(folder, ring, f"{ROOM}/opgp-gpgv")
            fits = (ended.returncode == 0, has_list) == (is_good, is_good)
            verdict(f"apt-get update, {it.title}, {form}", fits, (ended.stdout, ended.stderr, os.listdir(f"{ROOM}/{folder} state/lists")))
    # A fingerprint is that of the key, or of the primary one; with ! behind it that of the key alone.
    it = next(one for one in those() if one.title == "good, by a subkey")
    sub, other = signers.ed25519("sub", BORN), signers.ed25519("other", BORN)
    repository("prints", it)
    ring = kept("trusted/ring.gpg", it.ring)
    for signer, is_good in ((digits(it.of.fingerprint), True), (digits(sub.fingerprint), True), (f"{digits(sub.fingerprint)}!", True), (f"{digits(it.of.fingerprint)}!", False), (digits(other.fingerprint), False)):
        shutil.rmtree(f"{ROOM}/prints state", ignore_errors=True)
        ended, has_list = updated("prints", signer, f"{ROOM}/opgp-gpgv", os.path.dirname(ring))
        verdict(f"apt-get update, signed by {signer}", (ended.returncode == 0, has_list) == (is_good, is_good), (ended.stdout, ended.stderr))


# ---- dpkg, uscan


def has_module(name):
    return shutil.which("perl") and run("perl", f"-M{name}", "-e", "1").returncode == 0


def with_dpkg():
    """Dpkg::OpenPGP, by which dpkg-source verifies signatures of tarballs: it goes by the exit status."""
    if not has_module("Dpkg::OpenPGP"):
        left_out("Perl's module Dpkg::OpenPGP")
        return
    script = 'my ($kind, $cmd, $data, $sig, @certs) = @ARGV; exit Dpkg::OpenPGP->new(backend => $kind, cmdv => $cmd, cmd => $cmd)->verify($data, $sig, @certs)'
    document = kept("document", DOCUMENT)
    for it in those():
        for kind, name in (("gpg", "opgp-gpgv"), ("sop", "opgp-sopv")):
            for form in ("pgp", "asc"):
                ring = kept(f"certs.{form}", it.ring if form == "pgp" else model.armor(it.ring))
                signature = kept("document.asc", model.armor(it.over(DOCUMENT), b"SIGNATURE"))
                ended = run("perl", "-MDpkg::OpenPGP", "-e", script, kind, f"{ROOM}/{name}", document, signature, ring)
                # One good signature is enough for sop; all must be good for gpgv.
                is_good = (it.is_good is not False) if kind == "sop" else bool(it.is_good)
                verdict(f"dpkg by {name}, {it.title}, {form}", (ended.returncode == 0) == is_good, ended)


def with_uscan():
    """uscan's own calls; and its module, by which it makes them."""
    document = kept("document", DOCUMENT)
    folder = f"{ROOM}/home"
    script = 'my ($name, $cmd, $ring, $sig, $data) = @ARGV; (bless {$name => $cmd, keyring => $ring, gpghome => $ENV{HOME}}, "Devscripts::Uscan::Keyring")->verifyv($sig, $data)'
    is_here = has_module("Devscripts::Uscan::Keyring")
    kinds = []
    if is_here:
        path = run("perl", "-MDevscripts::Uscan::Keyring", "-e", "print $INC{'Devscripts/Uscan/Keyring.pm'}").stdout.decode()
        with open(path, encoding="utf-8") as file:
            kinds = [it for it in ("gpgv", "sopv") if f"{{{it}}}" in file.read()]
    else:
        left_out("Perl's module Devscripts::Uscan::Keyring")
    for it in those():
        ring, signature = kept("upstream.gpg", it.ring), kept("document.asc", model.armor(it.over(DOCUMENT), b"SIGNATURE"))
        ended = run(f"{ROOM}/opgp-gpgv", "--homedir", "/dev/null", "--keyring", ring, signature, document)
        verdict(f"uscan's words for gpgv, {it.title}", (ended.returncode == 0) == bool(it.is_good), ended)
        ended = run(f"{ROOM}/opgp-sopv", "verify", signature, ring, given=DOCUMENT)
        verdict(f"uscan's words for sopv, {it.title}", (ended.returncode == 0) == (it.is_good is not False), ended)
        for kind in kinds:
            ended = run("perl", "-MDevscripts::Uscan::Keyring", "-e", script, kind, f"{ROOM}/opgp-{kind}", ring, signature, document, cwd=folder)
            is_good = (it.is_good is not False) if kind == "sopv" else bool(it.is_good)
            verdict(f"uscan by opgp-{kind}, {it.title}", (ended.returncode == 0) == is_good, ended)


# ---- Cleartext messages


def of_messages():
    """Of each kind one that signs messages: of another type than 01 none is good there."""
    yield from those()
    key, other = (signers.ed25519(name, BORN) for name in ("one", "other"))
    ring = signers.certificate(key, b"Archive One <one@example.org>")
    for title, signer in (("of type 00", key), ("of type 00, absent", other)):
        yield Signer(title, False, ring, lambda octets, kind=0, signer=signer: signers.over(signer, octets, MADE))


def is_enough(it):
    """Whether one good signature is there."""
    return it.is_good is not False


def package():
    """The files of a source package of one file, and its .dsc without a signature."""
    folder = f"{ROOM}/package"
    os.makedirs(f"{folder}/hello-1.0/debian", exist_ok=True)
    for name, octets in (("control", b"Source: hello\nMaintainer: A <a@example.org>\n\nPackage: hello\nArchitecture: all\nDescription: hello\n"),
                         ("changelog", b"hello (1.0) unstable; urgency=low\n\n  * One.\n\n -- A <a@example.org>  Thu, 01 Jan 2026 00:00:00 +0000\n"),
                         ("rules", b"#!/usr/bin/make -f\n"), ("source/format", b"3.0 (native)\n")):
        kept(f"package/hello-1.0/debian/{name}", octets)
    ended = run("dpkg-source", "-b", "hello-1.0", cwd=folder)
    verdict("dpkg-source -b", ended.returncode == 0, ended)
    with open(f"{folder}/hello_1.0.dsc", "rb") as it:
        return folder, it.read()


VENDOR = b"""package Dpkg::Vendor::Optest;
use parent 'Dpkg::Vendor::Default';
sub run_hook { my ($self, $hook, @more) = @_; return $hook eq 'package-keyrings' ? ($ENV{OPTEST}) : $self->SUPER::run_hook($hook, @more) }
1;
"""


HIDDEN = ("sqop", "pgpainless-cli", "sq", "gpgv", "gpgv2", "gpg", "gpg2")  # programs that clients look for in PATH


def programs(name):
    """A folder for PATH, which has the machine's programs without those that verify."""
    os.makedirs(f"{ROOM}/{name}")
    for place in ("/usr/bin", "/bin"):
        for program in os.listdir(place):
            if program not in HIDDEN and not os.path.lexists(f"{ROOM}/{name}/{program}"):
                os.symlink(f"{place}/{program}", f"{ROOM}/{name}/{program}")
    return f"{ROOM}/{name}"


def script(name, *lines):
    """A program of these lines of the shell."""
    path = kept(name, "".join(f"{line}\n" for line in ("#!/bin/sh", *lines)).encode())
    os.chmod(path, 0o755)
    return path


def with_dpkg_source():
    """dpkg-source --require-valid-signature: by the first of sqop and gpgv in PATH, and the keyrings of the vendor."""
    if not shutil.which("dpkg-source"):
        left_out("dpkg-source")
        return
    folder, dsc = package()
    kept("origins/optest", b"Vendor: Optest\n")
    kept("perl/Dpkg/Vendor/Optest.pm", VENDOR)
    os.symlink(f"{ROOM}/opgp-gpgv", f"{programs('bin-gpg')}/gpgv")
    programs("bin-sop")
    script("bin-sop/sqop", f'exec {ROOM}/opgp-sopv "$@"')
    for it in of_messages():
        for kind in ("sop", "gpg"):
            forms = [("", it.message(dsc)), (", text in front", b"x\n" + it.message(dsc)), (", text behind", it.message(dsc) + b"x\n"), (", unsigned", dsc)]
            for form, message in forms if it.title == "good" else forms[:1]:
                kept("package/signed.dsc", message)
                env = {"PATH": f"{ROOM}/bin-{kind}", "PERL5LIB": f"{ROOM}/perl", "DPKG_ORIGINS_DIR": f"{ROOM}/origins", "DEB_VENDOR": "optest", "OPTEST": kept("vendor.gpg", it.ring)}
                shutil.rmtree(f"{folder}/taken", ignore_errors=True)
                ended = run("dpkg-source", "--require-valid-signature", "-x", "signed.dsc", "taken", cwd=folder, env=env)
                is_good = not form and (is_enough(it) if kind == "sop" else bool(it.is_good))
                fits = (ended.returncode == 0, os.path.isdir(f"{folder}/taken")) == (is_good, is_good)
                verdict(f"dpkg-source by {kind}, {it.title}{form}", fits, ended)


def with_messages():
    """The calls of dpkg's module, of uscan and of dscverify over a message: what is written is what was signed, or nothing."""
    has_dpkg = has_module("Dpkg::OpenPGP")
    if not has_dpkg:
        left_out("Perl's module Dpkg::OpenPGP")
    script = 'my ($kind, $cmd, $message, $out, @certs) = @ARGV; exit Dpkg::OpenPGP->new(backend => $kind, cmdv => $cmd, cmd => $cmd)->inline_verify($message, $out, @certs)'
    text, place = b"a document\n-in lines", f"{ROOM}/taken"
    for it in of_messages():
        message, ring = kept("message.asc", it.message(text)), kept("upstream.gpg", it.ring)

        def taken():
            octets = None
            if os.path.exists(place):
                with open(place, "rb") as file:
                    octets = file.read()
                os.remove(place)
            return octets

        for kind, name in (("gpg", "opgp-gpgv"), ("sop", "opgp-sopv")) if has_dpkg else ():
            ended = run("perl", "-MDpkg::OpenPGP", "-e", script, kind, f"{ROOM}/{name}", message, place, ring)
            is_good = is_enough(it) if kind == "sop" else bool(it.is_good)
            written = text + b"\n" if kind == "gpg" else text
            fits = (ended.returncode == 0, taken() or None) == (is_good, written if is_good else None)
            verdict(f"dpkg's inline_verify by {name}, {it.title}", fits, ended)
        ended = run(f"{ROOM}/opgp-gpgv", "--homedir", "/dev/null", "--keyring", ring, "-o", place, message)
        verdict(f"uscan's words for gpgv, inline, {it.title}", (ended.returncode == 0, taken()) == (bool(it.is_good), text + b"\n" if it.is_good else None), ended)
        with open(message, "rb") as source:
            ended = run(f"{ROOM}/opgp-sopv", "inline-verify", ring, given=source.read())
        verdict(f"uscan's words for sopv, inline, {it.title}", (ended.returncode == 0, ended.stdout) == (is_enough(it), text if is_enough(it) else b""), ended)
        words = ["--status-fd", "2", "--batch", "--no-options", "--no-default-keyring", "--always-trust", "--keyring", ring, "--verify", "--output", "-"]
        with open(message, "rb") as source:
            ended = run(f"{ROOM}/opgp-gpgv", *words, given=source.read())
        told = b"\n[GNUPG:] VALIDSIG " in ended.stderr
        verdict(f"dscverify's words, {it.title}", (told, ended.stdout) == (is_enough(it), text + b"\n" if it.is_good else b""), ended)


# ---- dscverify


def changes(*files):
    """What a .changes file says of these files, names and octets."""
    lines = ["Format: 1.8", "Date: Thu, 01 Jan 2026 00:00:00 +0000", "Source: hello", "Architecture: source", "Version: 1.0", "Distribution: unstable"]
    for field, kind, more in (("Checksums-Sha1", "sha1", ""), ("Checksums-Sha256", "sha256", ""), ("Files", "md5", "misc optional ")):
        lines += [f"{field}:", *(f" {hashlib.new(kind, octets).hexdigest()} {len(octets)} {more}{name}" for name, octets in files)]
    return "".join(f"{line}\n" for line in lines).encode()


def pairs():
    """A good signer, and one of each kind with another key; both are in the keyring of the second, but for one that is absent."""
    found = {it.title: it for it in those()}
    good = found["good"]
    yield good, good
    yield good, Signer("absent", False, good.ring, *found["absent"].signing)
    yield good, Signer("changed", False, good.ring, *found["changed"].signing)
    yield good, Signer("revoked", False, found["good and revoked"].ring, found["good and revoked"].signing[1])
    yield good, Signer("expired", False, found["expired and good"].ring, found["expired and good"].signing[0])


def with_dscverify():
    """dscverify over a .dsc, and over a .changes that names one: by gpg in PATH. It wants exit status 0 and a line VALIDSIG."""
    if not shutil.which("dscverify") or not shutil.which("dpkg-source"):
        left_out("dscverify and dpkg-source")
        return
    folder, dsc = package()
    path = programs("bin-dscverify")
    script("bin-dscverify/gpg", f'exec {ROOM}/opgp-gpgv "$@"')

    def tried(title, name, is_good, *rings):
        words = [word for ring in rings for word in ("--keyring", kept("dscverify.gpg", ring))]
        ended = run("dscverify", "--no-conf", "--no-default-keyrings", *words, name, cwd=folder, env={"PATH": path})
        told = b"All files validated successfully." in ended.stdout, b"Validation FAILED!!" in ended.stderr
        verdict(f"dscverify, {title}", (ended.returncode == 0, *told) == (is_good, is_good, not is_good), ended)

    def message_of(it, octets):
        """The message, with an empty line in front of the signature, as debsign and dpkg-buildpackage leave one."""
        return it.message(octets + b"\n")

    for it in of_messages():
        message = message_of(it, dsc)
        kept("package/signed.dsc", message)
        tried(it.title, "signed.dsc", bool(it.is_good), it.ring)
        if it.title == "good":
            tried("no keyring", "signed.dsc", False)
            at = message.index(b"SIGNATURE-----\n\n") + 100  # a letter of the second line
            letter = b"B" if message[at : at + 1] == b"A" else b"A"
            for title, octets in (("text in front", b"x\n" + message), ("text behind", message + b"x\n"), ("unsigned", dsc), ("nothing", b""),
                                  ("an octet changed", message.replace(b"Version: 1.0", b"Version: 1.1")),
                                  ("a letter changed", message[:at] + letter + message[at + 1 :]),
                                  ("no end line", message[: message.rindex(b"-----END")])):
                kept("package/signed.dsc", octets)
                tried(title, "signed.dsc", False, it.ring)
    # A list that ends where the message does: dscverify reads its last row only if that has a line end.
    good = next(it for it in of_messages() if it.title == "good")
    rows = (("one.txt", b"one"), ("two.txt", b"two"))
    kept("package/signed.changes", good.message(changes(*rows).rstrip(b"\n")))
    for changed in (None, "one.txt", "two.txt"):
        for name, octets in rows:
            kept(f"package/{name}", octets if name != changed else octets[::-1])
        tried(f"a list up to the end, changed is {changed}", "signed.changes", changed is None, good.ring)
    for good, it in pairs():
        for kind, outer, inner in (("the .dsc in a .changes", good, it), ("a .changes", it, good)):
            within = message_of(inner, dsc)
            kept("package/signed.dsc", within)
            kept("package/signed.changes", message_of(outer, changes(("signed.dsc", within))))
            tried(f"{kind}, {it.title}", "signed.changes", bool(it.is_good), it.ring)


# ---- debsig-verify


def archived(members):
    """The octets of an ar archive."""
    octets = b"!<arch>\n"
    for name, it in members:
        octets += b"%-16s%-12d%-6d%-6d%-8s%-10d`\n" % (name, 0, 0, 0, b"100644", len(it)) + it + b"\n" * (len(it) % 2)
    return octets


def packed(*files):
    """The octets of a compressed tar archive."""
    room = io.BytesIO()
    with tarfile.open(fileobj=room, mode="w") as archive:
        for name, octets in files:
            it = tarfile.TarInfo(name)
            it.size = len(octets)
            archive.addfile(it, io.BytesIO(octets))
    return gzip.compress(room.getvalue(), mtime=0)


POLICY = """<?xml version="1.0"?>
<!DOCTYPE Policy SYSTEM "https://www.debian.org/debsig/1.0/policy.dtd">
<Policy xmlns="https://www.debian.org/debsig/1.0/">
  <Origin Name="One" id="{0}" Description="One"/>
  <Selection><Required Type="origin" File="ring.pgp" id="{0}"/></Selection>
  <Verification MinOptional="0"><Required Type="origin" File="ring.pgp" id="{0}"/></Verification>
</Policy>
"""


def with_debsig():
    """debsig-verify over a package that has its signature in it. It asks its program three things: who signed, over an empty document and with an
    empty keyring; which keys a keyring has, by gpg's --show-keys and --with-colons; and whether the signature is good. The second isn't for a
    verifier: by opgp-gpgv alone no package is verified. Where gpg answers that, those are that are good."""
    if not shutil.which("debsig-verify"):
        left_out("debsig-verify")
        return
    control = b"Package: hello\nVersion: 1.0\nArchitecture: all\nMaintainer: A <a@example.org>\nDescription: hello\n"
    parts = [(b"debian-binary", b"2.0\n"), (b"control.tar.gz", packed(("./control", control))), (b"data.tar.gz", packed())]
    signed = b"".join(octets for _, octets in parts)
    alone = f"{ROOM}/opgp-gpgv"
    both = script("debsig-gpg", 'for it; do case $it in --show-keys) exec gpg "$@" ;; esac; done', f'exec {alone} "$@"')
    has_gpg = shutil.which("gpg")
    if not has_gpg:
        left_out("gpg, which lists keys for debsig-verify")

    def ended_by(program, *members):
        package = kept("hello.deb", archived(members))
        return run("debsig-verify", "--root", f"{ROOM}/debsig", package, env={"DEBSIG_GNUPG_PROGRAM": program, "TMPDIR": ROOM})

    for it in those():
        if it.title == "good, over text":
            continue  # an archive isn't text
        for name in ("one", "second 0", "other", "sub"):
            key = digits(signers.ed25519(name, BORN).fingerprint)
            kept(f"debsig/etc/debsig/policies/{key}/one.pol", POLICY.format(key).encode())
            kept(f"debsig/usr/share/debsig/keyrings/{key}/ring.pgp", it.ring)
        is_good = it.title in ("good", "good and good")  # a policy names a primary key, that of the first signature
        signature = it.over(signed)
        for form, octets in (("", signature), (", armored", model.armor(signature, b"SIGNATURE"))):
            ended = ended_by(alone, *parts, (b"_gpgorigin", octets))
            verdict(f"debsig-verify by opgp-gpgv alone, {it.title}{form}", ended.returncode == 14, ended)
            if has_gpg:
                ended = ended_by(both, *parts, (b"_gpgorigin", octets))
                verdict(f"debsig-verify, {it.title}{form}", ended.returncode in ((0,) if is_good else (12, 13)), ended)
        if it.title == "good" and has_gpg:
            members = [*parts, (b"_gpgorigin", signature)]
            for at, (name, octets) in enumerate(members):
                changed = octets[:-2] + bytes([octets[-2] ^ 1]) + octets[-1:]
                ended = ended_by(both, *members[:at], (name, changed), *members[at + 1 :])
                verdict(f"debsig-verify, {name.decode()} changed", ended.returncode == 13, ended)
            verdict("debsig-verify, no signature", ended_by(both, *parts).returncode == 10)


def with_inrelease():
    """apt-get update: InRelease, by opgp-gpgv. apt itself takes such a file apart, and refuses text outside."""
    if not shutil.which("apt-get"):
        left_out("apt-get")
        return
    more = {"good and absent": True, "absent and good": True, "good and revoked": True, "expired and good": True, "good and bad": False, "bad and good": False}
    for order, it in enumerate(those()):
        folder = f"inrelease-{order}"
        top = repository(folder, it)
        with open(f"{top}/dists/stable/Release", "rb") as file:
            message = it.message(file.read().rstrip(b"\n"))
        os.remove(f"{top}/dists/stable/Release")
        os.remove(f"{top}/dists/stable/Release.gpg")
        for form, octets in (("", message), (", text in front", b"x\n" + message), (", text behind", message + b"x\n"), (", a line changed", message.replace(b"Label: Test", b"Label: Toast"))):
            kept(f"{folder}/dists/stable/InRelease", octets)
            shutil.rmtree(f"{ROOM}/{folder} state", ignore_errors=True)
            ended, has_list = updated(folder, kept(f"ring-{order}.gpg", it.ring), f"{ROOM}/opgp-gpgv")
            is_good = more.get(it.title, it.is_good) and not form
            verdict(f"apt-get update by InRelease, {it.title}{form}", (ended.returncode == 0, has_list) == (is_good, is_good), (ended.stdout, ended.stderr))


def with_debian():
    """Debian's InRelease files that are here: the same lines as gpgv's, and the same document."""
    rings = [it for it in ("/usr/share/keyrings/debian-archive-keyring.gpg", "/usr/share/keyrings/debian-archive-keyring.pgp") if os.path.exists(it)]
    paths = sorted(glob.glob("/var/lib/apt/lists/*InRelease"))
    if not paths or not rings or not shutil.which("gpgv"):
        left_out("InRelease files of Debian, its keyring, or gpgv")
        return
    for path in paths:
        asked = ["--keyring", rings[0], "--status-fd", "1"]
        theirs, ours = run("gpgv", *asked, "-o", f"{ROOM}/theirs", path), run(f"{ROOM}/opgp-gpgv", *asked, "-o", f"{ROOM}/ours", path)
        told = lines_of(theirs, ("GOODSIG", "VALIDSIG")), lines_of(ours, ("GOODSIG", "VALIDSIG"))
        verdict(f"gpgv's lines, {os.path.basename(path)}", told[0] == told[1] and len(told[0]) > 0 and ours.returncode == 0, (theirs, ours))
        documents = []
        for name in ("theirs", "ours"):
            with open(f"{ROOM}/{name}", "rb") as it:
                documents.append(it.read())
            os.remove(f"{ROOM}/{name}")
        verdict(f"gpgv's document, {os.path.basename(path)}", documents[0] == documents[1] and len(documents[1]) > 1000)
        document = documents[1][:-1]  # the last line end isn't signed
        with open(path, "rb") as it:
            octets = it.read()
        # apt's own form: the document and the signatures in two files.
        block = octets[octets.index(b"-----BEGIN PGP SIGNATURE-----") :]
        split = run(f"{ROOM}/opgp-gpgv", *asked, kept("split.sig", block), kept("split.data", document))
        verdict(f"apt's split, {os.path.basename(path)}", split.stdout == ours.stdout and split.returncode == 0, split)
        ended = run(f"{ROOM}/opgp-sopv", "inline-verify", rings[0], given=octets)
        verdict(f"opgp-sopv, {os.path.basename(path)}", (ended.returncode, ended.stdout) == (0, document), ended.stderr)
        ended = run(f"{ROOM}/opgp-sqv", "--keyring", rings[0], "--cleartext", "--output", f"{ROOM}/ours", path)
        verdict(f"opgp-sqv, {os.path.basename(path)}", ended.returncode == 0 and ended.stdout.count(b"\n") >= 1, ended)
        os.remove(f"{ROOM}/ours")


def with_checksum(message):
    """The message with a checksum (6.1.1) in its armor: without one gpg 2.2 can't read octets whose number is a multiple of 3."""
    letters = message.rpartition(b"\n\n")[2].partition(b"-----END")[0]
    crc = 0xB704CE
    for octet in base64.b64decode(b"".join(letters.split())):
        crc ^= octet << 16
        for _ in range(8):
            crc = crc << 1 ^ (0x1864CFB if crc & 0x800000 else 0)
    return message.replace(b"-----END", b"=" + base64.b64encode(crc.to_bytes(3, "big")) + b"\n-----END")


def messages_beside():
    """Of messages gpgv writes the same lines where opgp-gpgv accepts, and sqop the same document, but for its last line end."""
    text = b"a document\n-in lines"
    for it in of_messages():
        message, ring = it.message(text), kept("ring.gpg", it.ring)
        path = kept("message.asc", message)
        ours = run(f"{ROOM}/opgp-gpgv", "--keyring", ring, "--status-fd", "1", path)
        if shutil.which("gpgv"):
            theirs = run("gpgv", "--keyring", ring, "--status-fd", "1", kept("summed.asc", with_checksum(message)))
            words = ("GOODSIG", "VALIDSIG")
            if ours.returncode == 0:
                verdict(f"gpgv's lines of a message, {it.title}", lines_of(ours, words) == lines_of(theirs, words) and theirs.returncode == 0, (ours, theirs))
        ours = run(f"{ROOM}/opgp-sopv", "inline-verify", ring, given=message)
        if shutil.which("sqop") and ours.returncode == 0:
            theirs = run("sqop", "inline-verify", ring, given=message)
            verdict(f"sqop's document, {it.title}", theirs.returncode == 0 and theirs.stdout.rstrip(b"\n") == ours.stdout == text, (ours, theirs))


# ---- Other programs that do the same


def lines_of(ended, words):
    """The status lines of these words."""
    lines = [line.removeprefix("[GNUPG:] ") for line in ended.stdout.decode(errors="replace").splitlines()]
    return [line for line in lines if line.split(" ")[0] in words]


def beside_gpgv():
    """Of what is good gpgv writes the same lines; and so of bad and absent ones."""
    if not shutil.which("gpgv"):
        left_out("gpgv")
        return
    same = ("good", "good, over text", "good, by a subkey", "absent", "changed", "good and good", "good and absent", "absent and good", "good and bad")
    words = ("GOODSIG", "VALIDSIG", "BADSIG", "ERRSIG", "NO_PUBKEY", "EXPSIG", "EXPKEYSIG", "REVKEYSIG")
    document = kept("document", DOCUMENT)
    for it in those():
        ring, signature = kept("ring.gpg", it.ring), kept("document.sig", it.over(DOCUMENT))
        asked = ["--keyring", ring, "--status-fd", "1", signature, document]
        theirs, ours = run("gpgv", *asked), run(f"{ROOM}/opgp-gpgv", *asked)
        told = lines_of(theirs, words), lines_of(ours, words)
        if it.title in same:
            verdict(f"gpgv's lines, {it.title}", told[0] == told[1], told)
        first = [line.split(" ")[0] for line in told[0] if line.split(" ")[0] in ("EXPKEYSIG", "REVKEYSIG", "EXPSIG")]
        if first and it.is_good is False:
            verdict(f"gpgv's word, {it.title}", lines_of(ours, first) and ours.returncode == 1 and not lines_of(ours, ["VALIDSIG", "GOODSIG"]), told)
        # gpgv looks at no signature behind a bad one.
        holds = not lines_of(ours, ["GOODSIG"]) or lines_of(theirs, ["GOODSIG"]) or it.title == "bad and good"
        verdict(f"good by gpgv too, {it.title}", holds and (ours.returncode != 0 or theirs.returncode == 0), told)


def beside_sqv():
    """What opgp-sqv accepts sqv accepts, and by the same certificates."""
    if not shutil.which("sqv"):
        left_out("sqv")
        return
    document = kept("document", DOCUMENT)
    for it in those():
        ring, signature = kept("ring.gpg", it.ring), kept("document.sig", it.over(DOCUMENT))
        for more in ([], ["-n", "2"], ["--not-before", iso(MADE - DAY)], ["--not-before", iso(MADE + DAY)], ["--not-after", iso(MADE - DAY)]):
            asked = [*more, "--keyring", ring, signature, document]
            theirs, ours = run("sqv", *asked), run(f"{ROOM}/opgp-sqv", *asked)
            if ours.returncode == 0:
                same = theirs.returncode == 0 and sorted(ours.stdout.splitlines()) == sorted(theirs.stdout.splitlines())
                verdict(f"sqv {more}, {it.title}", same, (theirs, ours))
            elif it.is_good is not False:
                verdict(f"sqv {more}, {it.title}, not accepted", theirs.returncode != 0, (theirs, ours))
        wanted = run(f"{ROOM}/opgp-sqv", "--keyring", ring, signature, document)
        verdict(f"opgp-sqv, {it.title}", (wanted.returncode == 0) == (it.is_good is not False), wanted)


def beside_sop():
    """Each program of sop says of what opgp-sopv accepts the same, in the first three words of a line."""
    programs = [it for it in ("sqop", "rsopv") if shutil.which(it)]
    if not programs:
        left_out("sqop and rsopv")
    for it in those():
        ring, signature = kept("ring.gpg", it.ring), kept("document.sig", it.over(DOCUMENT))
        ours = run(f"{ROOM}/opgp-sopv", "verify", signature, ring, given=DOCUMENT)
        verdict(f"opgp-sopv, {it.title}", ours.returncode == (3 if it.is_good is False else 0), ours)
        for program in programs if ours.returncode == 0 else []:
            theirs = run(program, "verify", signature, ring, given=DOCUMENT)
            words = [[line.split()[:3] for line in ended.stdout.decode().splitlines()] for ended in (theirs, ours)]
            told = [sorted([first[:19], *(word.upper() for word in rest)] for first, *rest in lines) for lines in words]
            verdict(f"{program} verify, {it.title}", theirs.returncode == 0 and told[0] == told[1], (theirs, ours))


def main():
    global ROOM
    words = argparse.ArgumentParser(prog="tests/bindings/clients.py", description=__doc__.split("\n\n", maxsplit=1)[0])
    words.add_argument("--program")
    words.add_argument("--only", help="one part, for work on it")
    words = words.parse_args()
    resource.setrlimit(resource.RLIMIT_CORE, (0, 0))
    with tempfile.TemporaryDirectory() as room:
        ROOM = names.ROOM = room
        os.mkdir(f"{room}/home", 0o700)
        program = os.path.abspath(words.program) if words.program else names.built()[0]
        verdict("make verifier", program or not names.failed)
        for name in names.NAMES if program else ():
            os.symlink(program, f"{room}/{name}")
        for part in (with_git, with_apt, with_dpkg, with_uscan, with_dpkg_source, with_messages, with_dscverify, with_debsig, with_inrelease, with_debian,
                     beside_gpgv, beside_sqv, beside_sop, messages_beside) if program else ():
            if words.only in (None, part.__name__):
                part()
    print(f"{passed} passed, {failed} failed")
    return int(failed > 0)


if __name__ == "__main__":
    sys.exit(main())
