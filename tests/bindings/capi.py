#!/usr/bin/env python3
"""Builds and installs the library for C in a folder of its own, and tries it: the compilers' warnings, the symbols that it shows,
users' programs by pkg-config, each call in each way (tests/bindings/capi.c), also with the sanitizers that are there, and the
tables, faults, hashed octets and packets of keyrings beside those that the program prints; and opgp-verify over samples, over
certificates of each algorithm (tests/vectors/algorithms), over the archive's keyrings and beside gpg, where those and libcrypto
are. What isn't here is said on standard error. The last line counts what was tried."""

import glob
import hashlib
import os
import re
import shutil
import subprocess
import sys
import tempfile

sys.dont_write_bytecode = True
sys.path.insert(0, f"{sys.path[0]}/../lib")

import model  # noqa: E402
import standing  # noqa: E402
import standing_cases  # noqa: E402
from inputs import PACKET_TYPES  # noqa: E402
from running import COMMANDS, HERE, built  # noqa: E402

PROGRAM = built("tests/bindings/capi.py")
STRICT = ["-std=c11", "-Wall", "-Wextra", "-Wconversion", "-pedantic", "-Werror", f"-I{HERE}/c"]
WRAP = [f"-Wl,--wrap={it}" for it in ("malloc", "calloc", "realloc", "free")]
SMALL = [f"{HERE}/examples/rfc9580-a1.asc", f"{HERE}/examples/rfc9580-a3.asc", f"{HERE}/tests/cases/check/two_blocks_checked/stdin",
         f"{HERE}/tests/cases/check/fillers_and_malformed_embedded_checked/stdin", f"{HERE}/tests/cases/list/attribute_in_front_of_a_subkey_listed/stdin"]
MADE = sorted(glob.glob(f"{HERE}/tests/vectors/algorithms/*.gpg"))
VECTORS = sorted({*glob.glob(f"{HERE}/tests/vectors/*/*.asc"), *glob.glob(f"{HERE}/tests/vectors/*/*.gpg")} - {*MADE})
ARCHIVE = sorted(glob.glob("/usr/share/keyrings/debian-*.gpg") + glob.glob("/usr/share/keyrings/debian-*.pgp"))
MOST = 1 << 20  # octets of an archive's keyring, so that no test takes a minute
# A program over opgp.hpp: the fingerprints of the keys, how many signatures and what they hash, and the parts in pieces of 7 octets;
# judging and states, whose verifier may throw.
CPP = """#include <opgp.hpp>
#include <cstdio>
#include <iostream>
#include <iterator>
// Two signatures over a document, of types 00 and 01, each with nothing in its areas.
static bool documents(const opgp::Keyring &keyring)
{
    std::string one("\\xC2\\x0E\\x04\\x00\\x16\\x08\\x00\\x00\\x00\\x00\\xAB\\xCD\\x00\\x00\\x00\\x00", 16), two(one);
    two[3] = 1;
    try {
        opgp::Document none("");
        return false;
    } catch (const opgp::Fault &) {
    }
    opgp::Document begun(one + two);
    begun.push("a\\n");
    opgp::Document document(std::move(begun));
    document.push("");
    try {
        document.signatures();
        return false;
    } catch (const std::logic_error &) {
    }
    document.end();
    const opgp::Signatures alone = document.signatures(), found = document.signatures(&keyring);
    bool is_well = alone.size() == 2 && found.size() == 2 && document.octets(1, false).empty();
    for (const opgp_job &job : found) {
        is_well = is_well && job.why == OPGP_WHY_HASHED && job.kind == job.hang && found.field(job, 0).empty() && found.issuer(job).empty();
        is_well = is_well && document.octets(job.hang, true).size() == 12;
    }
    const auto judged = document.judge(keyring, 0, [](const opgp_question &) { return OPGP_GOOD; });
    is_well = is_well && judged.size() == 2;
    for (const opgp::Judgement &it : judged) {
        is_well = is_well && it.verdict == OPGP_BAD && it.why == OPGP_NOT_GOOD && it.signer.empty();
    }
    opgp::CanonicalText text;
    std::string made = text.push("a\\n\\r");
    made += text.push("");
    made += text.push("\\nb");
    text.end();
    try {
        text.push("\\rc");
        return false;
    } catch (const opgp::Fault &fault) {
        is_well = is_well && fault.fault.pos == 5;
    }
    return is_well && made == "a\\r\\n\\r\\nb";
}

// A cleartext message's document, and its signatures, of types 00 and 01: only the latter are hashed.
static bool messages(const opgp::Keyring &keyring)
{
    const std::string message = "-----BEGIN PGP SIGNED MESSAGE-----\\n\\na\\n- -b\\n-----BEGIN PGP SIGNATURE-----\\n\\n"
                                "wg4EABYIAAAAAKvNAAAAAMIOBAEWCAAAAACrzQAAAAA=\\n-----END PGP SIGNATURE-----\\n";
    std::string text = "kept";
    try {
        opgp::Document::cleartext("x\\n" + message, text);
        return false;
    } catch (const opgp::Fault &fault) {
        if (fault.fault.layer != 6 || text != "kept") {
            return false;
        }
    }
    opgp::Document document = opgp::Document::cleartext(message, text);
    try {
        document.push("c");
        return false;
    } catch (const std::logic_error &) {
    }
    bool is_well = text == "a\\n-b";
    for (const opgp_job &job : document.signatures()) {
        is_well = is_well && job.why == (job.kind == 1 ? OPGP_WHY_HASHED : OPGP_WHY_KIND);
    }
    const auto judged = document.judge(keyring, 0, [](const opgp_question &) { return OPGP_GOOD; });
    return is_well && judged.size() == 2 && judged[0].verdict == OPGP_UNDECIDED && judged[1].verdict == OPGP_BAD;
}

// A file of verdicts is one on its keyring alone; and what was skipped is counted.
static bool verdicts(const opgp::Keyring &keyring)
{
    const std::string key("\\xC6\\x08\\x04\\x00\\x00\\x00\\x00\\x63kk", 10), head = "verdicts by arithmetic of keyring sha256 ";
    const std::string digest = "DIGEST", file = head + digest + " rows 0\\n";
    const opgp::Keyring bare = opgp::Keyring::read(key);
    try {
        keyring.verdicts(file);
        return false;
    } catch (const std::out_of_range &) {
    }
    return bare.verdicts(file).empty() && bare.skipped() == 0 && keyring.skipped() == 0;
}

// Each part of the merged keyring has a state, and what a verifier throws comes through.
static bool states(const opgp::Keyring &keyring)
{
    std::size_t heads = 0, asked = 0, thrown = 0;
    const opgp::Keyring merged = keyring.merged();
    for (const opgp_packet &packet : merged.packets()) {
        heads += packet.certificate != OPGP_NONE && packet.hang == OPGP_NONE;
    }
    bool is_well = keyring.states(0, [](const opgp_question &) { return OPGP_GOOD; }, OPGP_POLICY_ANY).size() == heads;
    try {
        is_well = is_well && keyring.states(1, [&](const opgp_question &) -> opgp_verdict { throw ++asked; }).size() == heads;
    } catch (std::size_t count) {
        thrown = count;
    }
    try {
        keyring.states(1, [](const opgp_question &) { return OPGP_BAD; }, 2);
        return false;
    } catch (const std::invalid_argument &) {
    }
    return is_well && thrown == asked && asked < 2;
}

int main()
{
    std::string octets((std::istreambuf_iterator<char>(std::cin)), {});
    try {
        const opgp::Keyring keyring = opgp::Keyring::read(octets);
        for (const opgp_key &key : keyring.keys()) {
            for (int i = 0; i < key.print_size; i++) {
                std::printf("%02X", key.print[i]);
            }
            std::putchar('\\n');
        }
        std::size_t hashed = 0, parts = 0;
        for (std::size_t row = 0; row < keyring.signatures().size(); row++) {
            try {
                hashed += keyring.octets(row).size();
            } catch (const std::out_of_range &) {
            }
        }
        opgp::Reader reader;
        for (std::size_t at = 0; at < octets.size(); at += 7) {
            reader.push(std::string_view(octets).substr(at, 7));
        }
        reader.end();
        opgp::Reader moved(std::move(reader));
        while (std::optional<opgp::Keyring> part = moved.take()) {
            parts += part->write().size();
        }
        bool is_twice = keyring.joined(keyring).write() == keyring.write() + keyring.write();
        opgp::Keyring given = opgp::Keyring::read(octets);
        const opgp::Keyring taken(std::move(given));
        bool is_gone = false;
        try {
            given.write();
        } catch (const std::logic_error &) {
            is_gone = true;
        }
        is_twice = is_twice && is_gone && taken.write() == keyring.write();
        std::printf("%zu %zu %d %d\\n", hashed, parts, is_twice, documents(keyring) && messages(keyring) && verdicts(keyring) && states(keyring));
    } catch (const opgp::Fault &fault) {
        std::cerr << fault.what() << std::endl;
        return 1;
    }
    return 0;
}
"""
# The SHA2-256 of the key there.
CPP = CPP.replace("DIGEST", hashlib.sha256(b"\xC6\x08\x04\0\0\0\0\x63kk").hexdigest().upper())
HASHES = {2: "sha1", 8: "sha256", 9: "sha384", 10: "sha512", 11: "sha224"}
with open(f"{HERE}/c/opgp.h", encoding="ascii") as header:
    HEADER = header.read()
SONAME = f"libopgp.so.{re.search(r'^#define OPGP_ABI (.*)$', HEADER, re.M)[1]}"  # the same number: who links to other structs finds no library
passed = failed = 0


def verdict(what, holds, said=""):
    global passed, failed
    passed, failed = passed + bool(holds), failed + (not holds)
    if not holds:
        print(f"tests/bindings/capi.py: {what}: FAILED {said}"[:2000], file=sys.stderr)


def left_out(what):
    print(f"tests/bindings/capi.py: left out, since it isn't here: {what}", file=sys.stderr)


def run(*words, **how):
    # What the program tells beside its fault is tried in tests/program/hints.py.
    if words[0] == PROGRAM and len(words) > 1 and words[1] in COMMANDS:
        words = [*words[:2], "--quiet", *words[2:]]
    return subprocess.run(words, capture_output=True, check=False, timeout=600, **how)


def opens(*words, source, **how):
    with open(source, "rb") as it:
        return run(*words, stdin=it, **how)


def counted(what, ended):
    """The verdicts of a program that counts its own."""
    global passed, failed
    found = re.fullmatch(rb"(\d+) passed, (\d+) failed\n", ended.stdout)
    verdict(f"{what} ends", found and ended.returncode == int(found[2] != b"0"), ended.stderr.decode(errors="replace"))
    if found:
        passed, failed = passed + int(found[1]), failed + int(found[2])
        sys.stderr.write(ended.stderr.decode(errors="replace"))


def lines_of(out):
    return out.decode().splitlines()


def name_of(source):
    return os.path.relpath(source, HERE) if source.startswith(HERE) else source


# ---- Building and installing


def compilers():
    found = [it for it in ("gcc", "clang") if shutil.which(it)]
    for it in {"gcc", "clang"} - {*found}:
        left_out(it)
    return found


def has_libcrypto():
    return run("cc", "-E", "-include", "openssl/core_names.h", "-x", "c", "/dev/null").returncode == 0


def compiled(room):
    """What is in C compiles without a warning, and the header in C++."""
    sources = [*glob.glob(f"{HERE}/c/*.c"), *glob.glob(f"{HERE}/c/examples/*.c")]
    if not has_libcrypto():
        left_out("libcrypto's headers")
        sources = [it for it in sources if os.path.basename(it) not in ("opgp-verify.c", "verify-arithmetic.c", "check.c")]
    for compiler in compilers():
        for file in sources:
            ended = run(compiler, *STRICT, "-O2", "-c", file, "-o", f"{room}/object.o")
            verdict(f"{name_of(file)} by {compiler}", ended.returncode == 0, ended.stderr.decode())
    with open(f"{room}/user.cc", "w", encoding="ascii") as it:
        it.write("#include <opgp.h>\nint main() { return opgp_abi() == OPGP_ABI ? 0 : 1; }\n")
    with open(f"{room}/ring.cc", "w", encoding="ascii") as it:
        it.write(CPP)
    for compiler in filter(shutil.which, ("g++", "clang++")):
        words = [compiler, "-std=c++17", "-Wall", "-Wextra", "-Wconversion", "-Wshadow", "-pedantic", "-Werror", f"-I{HERE}/c", "-c"]
        ended = run(*words, f"{room}/ring.cc", "-o", f"{room}/ring.o")
        verdict(f"opgp.hpp by {compiler}", ended.returncode == 0, ended.stderr.decode())
        # A loop over the rows of a keyring that is gone when it begins.
        for table in ("packets", "keys", "subpackets", "signatures"):
            with open(f"{room}/gone.cc", "w", encoding="ascii") as it:
                it.write(f'#include <opgp.hpp>\nint main() {{ for (auto &it : opgp::Keyring::read("").{table}()) {{ (void)it; }} }}\n')
            ended = run(*words, f"{room}/gone.cc", "-o", f"{room}/gone.o")
            verdict(f"{table} of a temporary by {compiler}", ended.returncode != 0 and b"delete" in ended.stderr, ended.stderr.decode())
        ended = run(compiler, "-std=c++11", "-Wall", "-Wextra", "-pedantic", "-Werror", f"-I{HERE}/c", "-c", f"{room}/user.cc", "-o",
                    f"{room}/user.o")
        verdict(f"the header by {compiler}", ended.returncode == 0, ended.stderr.decode())


def installed(room):
    """Installs below a folder of its own; the library made by each compiler."""
    for compiler in compilers():
        made = run("make", "-C", HERE, "library", f"CC={compiler}", f"made={room}/{compiler}", "CFLAGS=-O2 -Werror")
        verdict(f"make library by {compiler}", made.returncode == 0, made.stderr.decode())
    made = run("make", "-C", HERE, "install-library", f"made={room}/made", f"DESTDIR={room}", "PREFIX=/usr")
    verdict("make install-library", made.returncode == 0, made.stderr.decode())
    wanted = ["include/opgp.h", "include/opgp.hpp", "lib/libopgp.a", "lib/libopgp.so", f"lib/{SONAME}", "lib/pkgconfig/opgp.pc", "share/man/man3/libopgp.3"]
    wanted += ["lib/cmake/opgp/opgpConfig.cmake", "lib/cmake/opgp/opgpConfigVersion.cmake"]
    for name in ("opgp-verify", "opgp-sopv", "opgp-sqv", "opgp-gpgv"):
        wanted += [f"bin/{name}", f"share/man/man1/{name}.1"] * has_libcrypto()
    found = [os.path.relpath(it, f"{room}/usr") for it in glob.glob(f"{room}/usr/**", recursive=True) if not os.path.isdir(it)]
    verdict("what is installed", sorted(found) == sorted(wanted), found)
    verdict("the library's link", os.readlink(f"{room}/usr/lib/libopgp.so") == SONAME)
    return made.returncode == 0


def uninstalled(room):
    gone = run("make", "-C", HERE, "uninstall", f"DESTDIR={room}", "PREFIX=/usr")
    left = [it for it in glob.glob(f"{room}/usr/**", recursive=True) if not os.path.isdir(it)]
    verdict("make uninstall", gone.returncode == 0 and not left, left)


def symbols(room):
    with open(f"{HERE}/c/opgp.h", encoding="ascii") as it:
        declared = set(re.findall(r"^OPGP_API [^(]*?(opgp_\w+)\(", it.read(), re.M))
    for library in (f"{room}/usr/lib/{SONAME}", *(f"{room}/{it}/{SONAME}" for it in compilers())):
        shown = run("nm", "-D", "--defined-only", library).stdout.decode().splitlines()
        names = {it.split()[-1].split("@")[0] for it in shown} - {"OPGP_0"}
        verdict(f"{library} shows what the header declares, and no more", names == declared, names ^ declared)
        told = run("readelf", "-d", library).stdout.decode()
        verdict("its name", f"Library soname: [{SONAME}]" in told and "BIND_NOW" in told)
        verdict("it needs the C library alone", set(re.findall(r"NEEDED.*\[(.*)\]", told)) <= {"libc.so.6"}, told)
        verdict("it has no text relocations", "TEXTREL" not in told)
        verdict("its stack isn't executable", not re.search(r"GNU_STACK.*\n?.*RWE", run("readelf", "-lW", library).stdout.decode()))


# ---- Users' programs


def documented(room, flags, env):
    """The page's first program, as it stands there, prints the fingerprints that the program lists."""
    with open(f"{HERE}/docs/LIBRARY-C.md", encoding="ascii") as it:
        text = re.search(r"```c\n(#include.*?)```", it.read(), re.S)[1]
    with open(f"{room}/user.c", "w", encoding="ascii") as it:
        it.write(text)
    verdict("the page's first program has 26 lines or fewer", text.count("\n") <= 26, text.count("\n"))
    warned = run("cc", *STRICT, "-O2", "-c", f"{room}/user.c", "-o", f"{room}/user.o")
    verdict("the page's first program without a warning", warned.returncode == 0, warned.stderr.decode())
    ended = run("cc", f"{room}/user.c", *flags, "-o", f"{room}/user")
    verdict("the page's first program", ended.returncode == 0, ended.stderr.decode())
    for source in SMALL:
        lines = [it.split() for it in lines_of(opens(PROGRAM, "list", source=source).stdout)]
        ended = opens(f"{room}/user", source=source, env=env)
        wanted = (0, [it[6] for it in lines if it[0] in ("pub", "sub")])
        verdict(f"the page's first program on {name_of(source)}", (ended.returncode, lines_of(ended.stdout)) == wanted, ended)
    refused, wanted = run(f"{room}/user", input=b"text", env=env), run(PROGRAM, "list", input=b"text")
    verdict("the page's first program on a text", (refused.returncode, refused.stdout, refused.stderr) == (1, b"", wanted.stderr), refused)


def in_cpp(room):
    """A program over opgp.hpp, beside the program."""
    if not shutil.which("g++"):
        left_out("g++")
        return
    made = run("g++", "-std=c++17", "-O1", f"-I{room}/usr/include", f"{room}/ring.cc", f"{room}/usr/lib/libopgp.a", "-o", f"{room}/ring")
    verdict("a program over opgp.hpp", made.returncode == 0, made.stderr.decode())
    for source in SMALL + MADE:
        listed, whole = [lines_of(opens(PROGRAM, *it, source=source).stdout) for it in (["list"], ["check"])]
        hashed = opens(PROGRAM, "octets", "--all", source=source).stdout
        sizes = sum(len(opens(PROGRAM, "octets", "--row", str(it), source=source).stdout) for it in range(len(whole))) if hashed else 0
        packets = opens(PROGRAM, "write", "--out", "binary", source=source).stdout
        wanted = [it.split()[6] for it in listed if it[:3] in ("pub", "sub")] + [f"{sizes} {len(packets)} 1 1"]
        ended = opens(f"{room}/ring", source=source)
        verdict(f"{name_of(source)} in C++", (ended.returncode, lines_of(ended.stdout)) == (0, wanted), (ended, wanted))
    refused = run(f"{room}/ring", input=b"text")
    verdict("a text in C++", (refused.returncode, refused.stderr) == (1, run(PROGRAM, "list", input=b"text").stderr), refused)


def programs(room):
    """The examples, by pkg-config with the shared library, and with the static one."""
    env = {**os.environ, "PKG_CONFIG_LIBDIR": f"{room}/usr/lib/pkgconfig", "PKG_CONFIG_SYSROOT_DIR": room,
           "LD_LIBRARY_PATH": f"{room}/usr/lib"}
    flags = [f"-I{room}/usr/include", f"-L{room}/usr/lib", "-lopgp"]
    if shutil.which("pkg-config"):
        asked = run("pkg-config", "--cflags", "--libs", "opgp", env=env)
        verdict("pkg-config", asked.returncode == 0 and asked.stdout.decode().split() == flags, asked.stdout + asked.stderr)
        version = run("pkg-config", "--modversion", "opgp", env=env).stdout.decode().strip()
        with open(f"{HERE}/c/opgp.h", encoding="ascii") as it:
            verdict("the version", f'OPGP_VERSION "{version}"' in it.read(), version)
    else:
        left_out("pkg-config")
    documented(room, flags, env)
    names = ["keys", "octets"] + ["check"] * has_libcrypto()
    for name in names:
        more = ["-lcrypto"] if name == "check" else []
        for kind, words in (("shared", flags), ("static", [f"-I{room}/usr/include", f"{room}/usr/lib/libopgp.a"])):
            ended = run("cc", f"{HERE}/c/examples/{name}.c", *words, *more, "-o", f"{room}/{name}.{kind}")
            verdict(f"{name}.c with the {kind} library", ended.returncode == 0, ended.stderr.decode())
    for source in SMALL:
        keys = [it for it in lines_of(opens(PROGRAM, "list", source=source).stdout) if it[:3] in ("pub", "sub")]
        for kind in ("shared", "static"):
            ended = opens(f"{room}/keys.{kind}", source=source, env=env)
            verdict(f"keys of {name_of(source)}, {kind}", ended.returncode == 0 and lines_of(ended.stdout) == keys, ended.stderr)
            for row in range(3):
                wanted, ended = opens(PROGRAM, "octets", "--row", str(row), source=source), opens(
                    f"{room}/octets.{kind}", str(row), source=source, env=env)
                verdict(f"octets of row {row} of {name_of(source)}, {kind}",
                        (wanted.returncode, wanted.stdout) == (ended.returncode, ended.stdout), ended.stderr)
    for words in ([], ["x"], ["-1"], [""], ["0", "1"], ["9" * 19]):
        verdict(f"octets {words}", run(f"{room}/octets.static", *words, input=b"").returncode == 2)
    refused = run(f"{room}/keys.static", input=b"text")
    verdict("keys of a text", (refused.returncode, refused.stderr) == (1, run(PROGRAM, "list", input=b"text").stderr), refused.stderr)
    with open("/dev/full", "wb") as full, open(SMALL[0], "rb") as it:
        verdict("keys written to a full device", subprocess.run([f"{room}/keys.static"], stdin=it, stdout=full, check=False).returncode == 3)
    if "check" in names:
        ended = opens(f"{room}/check.shared", source=SMALL[1], env=env)
        verdict("check of the standard's certificate", ended.stdout == b"row 0 : good\nrow 1 : good\n", ended.stdout + ended.stderr)


# ---- Calls


def links(words, room):
    with open(f"{room}/empty.c", "w", encoding="ascii") as it:
        it.write("int main(void) { return 0; }\n")
    return run(*words, f"{room}/empty.c", "-o", f"{room}/empty").returncode == 0 and run(f"{room}/empty").returncode == 0


def calls(room):
    """tests/bindings/capi.c, plain and with the sanitizers of each compiler; and by valgrind."""
    sources = [f"{HERE}/tests/bindings/capi.c", f"{HERE}/c/opgp.c", f"{HERE}/c/heap.c", f"{HERE}/crates/opgp_c/out/libopgp_c.a"]
    sanitized = ["-fsanitize=address,undefined", "-fno-sanitize-recover=all"]
    for compiler in compilers():
        for kind, more in (("plain", []), ("sanitized", sanitized)):
            if not links([compiler, *more], room):
                left_out(f"{compiler} {' '.join(more)}")
                continue
            program = f"{room}/calls.{kind}"
            made = run(compiler, *STRICT, "-D_GNU_SOURCE", "-O1", "-gdwarf-4", *more, *sources, *WRAP, "-lpthread", "-o", program)
            verdict(f"tests/bindings/capi.c, {kind}, by {compiler}", made.returncode == 0, made.stderr.decode())
            if made.returncode == 0:
                for source in SMALL:
                    counted(f"calls over {name_of(source)}, {kind}, by {compiler}",
                            opens(program, "rooms", "on_top", "memory", "pieces", "wanting", "threads", source=source))
                counted(f"what is held, {kind}, by {compiler}", opens(program, "holding", source=SMALL[0]))
                for source in MADE + VECTORS:
                    counted(f"pieces of {name_of(source)}, {kind}, by {compiler}", opens(program, "pieces", source=source))
    if shutil.which("valgrind"):
        counted("calls by valgrind", opens("valgrind", "-q", "--error-exitcode=9", "--leak-check=full", f"{room}/calls.plain", "rooms",
                                           "on_top", source=SMALL[0]))
    else:
        left_out("valgrind")
    return f"{room}/calls.plain"


# ---- Tables, beside what the program prints


def dash(number):
    return "-" if number is None else str(number)


def digits(octets):
    return octets.hex().upper() or "-"


def packets_in(source, policy=()):
    """The packets of a keyring, by the places that the program shows in its packets written again."""
    octets = opens(PROGRAM, "write", "--out", "binary", *policy, source=source).stdout
    heads = {"old1": 2, "old2": 3, "old4": 5, "new1": 2, "new2": 3, "new5": 6}
    shown = run(PROGRAM, "show", "--mode", "binary", *policy, input=octets).stdout.decode()
    for at, kind, form, size in re.findall(r"^block 0 at (\d+) type (\d+) form (\w+) length (\d+)$", shown, re.M):
        begin = int(at) + heads[form]
        yield int(kind), octets[begin : begin + int(size)]


def placed(packets):
    """Each packet with its certificate, component and number, which this finds anew."""
    certificate = component = None
    hang = components = 0
    for kind, body in packets:
        if kind == 6:
            certificate, component, components, hang = 0 if certificate is None else certificate + 1, None, 0, 0
            yield certificate, None, None, kind, body
        elif kind in (13, 14, 17):
            component, components, hang = components, components + 1, 0
            yield certificate, component, None, kind, body
        else:
            yield certificate, component, hang, kind, body
            hang += 1


def made_fields(body):
    """The left octets of a version 4 or 6 signature, and what its algorithm made."""
    it = model.Signature(body)
    return it.left, model.made_by(it)


def key_lines(rows, listed):
    """The lines of the keys that tests/bindings/capi.c must print, of the packets' rows and the lines of `list`."""
    listed = [it.split() for it in listed if it[:3] in ("pub", "sub")]
    for (certificate, component, _, _, body), (_, version, _, alg, _, created, print_, key_id) in zip(
            (it for it in rows if it[3] in (6, 14)), listed):
        fields = " ".join(digits(it) for it in (model.key_material(body) + [b""] * 4)[:4])
        yield f"key {certificate} {dash(component)} {version} alg {alg} created {created} {print_} {key_id} {fields} zeros 1"


def subpacket_line(row, is_hashed, octet, data):
    kind = octet & 127
    meaning = ("typed", "unfit", "unknown").index(model.meaning(kind, data))
    form, numbers, fields = model.plain(kind, data)
    said = " ".join((*map(str, (form, *numbers)), *map(digits, fields)))
    return f"sub {row} hashed {is_hashed} kind {kind} critical {octet >> 7} meaning {meaning} {digits(data)} form {said} zeros 1"


def subpacket_lines(row, body):
    """The lines of the subpackets of this signature that tests/bindings/capi.c must print, by the model."""
    try:
        it = model.Signature(body)
    except model.Unfit:
        return
    for is_hashed, area in ((1, it.hashed), (0, it.unhashed)) if it.version in (4, 6) else ():
        for octet, _, data in area:
            yield subpacket_line(row, is_hashed, octet, data)


def subpackets_fit(what, told, checked, rows):
    """The rows of subpackets beside what the model finds in the signatures, in the order of the lines of `check`."""
    bodies = {(it[0], it[1], it[2]): it[4] for it in rows if it[3] == 2}
    wanted = []
    for row, line in enumerate(it.split() for it in checked):
        wanted += subpacket_lines(row, body_of([line[it] for it in (3, 5, 7, 9)], bodies))
    verdict(f"subpackets of {what}", told == wanted, (told, wanted))


def body_of(place, bodies):
    """The body of the signature in this place."""
    body = bodies[int(place[0]), None if place[1] == "-" else int(place[1]), int(place[2])]
    if place[3] == "-":
        return body
    outer = model.Signature(body)
    return [data for octet, _, data in (*outer.hashed, *outer.unhashed) if octet & 127 == 32][int(place[3])]


def stated(body):
    """What a row says of a signature itself, by the model: version, type, algorithms, left octets, and what its algorithm made."""
    it = model.kept_signature(body)
    made = (model.made_by(it) + [b""] * 2)[:2]
    return it, [f"v{it.version}", f"{it.kind:02X}", str(it.algorithm), str(it.hash), it.left.hex().upper(), *map(digits, made)]


def jobs_fit(source, what, told, checked, rows, policy):
    """The rows of jobs beside the lines of `check`, the packets, and the octets that the program writes."""
    bodies = {(it[0], it[1], it[2]): it[4] for it in rows if it[3] == 2}
    keys = [it[4] for it in rows if it[3] in (6, 14)]
    verdict(f"jobs of {what}: their number", len(told) == len(checked), (told, checked))
    for line, (row, wanted) in zip(told, enumerate(checked)):
        job, check = line.split(), wanted.split()
        said = job[7:9]
        del job[7:9]
        place = [row, *(check[it] for it in (3, 5, 7, 9))]
        verdict(f"place of row {row} of {what}", job[1:6] == [str(it) for it in place], (line, wanted))
        it, fields = stated(body_of(place[1:], bodies))
        found = [job[9], job[11], job[13], job[15], job[17], *job[24:26]]
        verdict(f"fields of row {row} of {what}", found == fields and job[-1] == "1", (line, fields))
        wished = [dash(model.created_of(it)), digits(model.issuer_of(it))]
        verdict(f"time and issuer of row {row} of {what}", said == wished, (line, wished))
        signer = model.signer_of(it, keys)
        verdict(f"signer of row {row} of {what}", job[6] == dash(keys.index(signer) if signer else None), (line, wanted))
        if check[11] == "none":
            found = [job[8], job[19], job[21], job[23]]
            verdict(f"why of row {row} of {what}", found == [check[12], "0", "0", "-"], (line, wanted))
        else:
            octets = opens(PROGRAM, "octets", "--row", str(row), *policy, source=source).stdout
            digest = hashlib.new(HASHES[int(check[15])], octets).hexdigest().upper()
            bad = check[21] == "bad"
            wanted = ["-", check[13], check[15], digest, str(int(bad)), str(2 * bad)]
            found = [job[8], job[11], job[15], job[23], job[19], job[21]]
            verdict(f"question of row {row} of {what}", found == wanted, (line, wanted))


KEPT = sorted(glob.glob(f"{HERE}/tests/cases/*/*malformed_signature_*/stdin"))


def tables(program):
    kept = [(it, ["--malformed", "keep"], ["--policies=2"]) for it in KEPT]
    for source, policy, policies in [(it, [], []) for it in SMALL + MADE + VECTORS] + kept:
        what = name_of(source)
        listed, ended = opens(PROGRAM, "list", *policy, source=source), opens(program, "told", *policies, source=source)
        if listed.returncode:
            verdict(f"the fault of {what}", (ended.returncode, ended.stderr) == (1, listed.stderr), ended.stderr)
            continue
        told, rows = lines_of(ended.stdout), [*placed(packets_in(source, policy))]
        wanted = [f"packet {dash(c)} {dash(p)} {dash(h)} {kind} {digits(body)} zeros 1" for c, p, h, kind, body in rows]
        verdict(f"packets of {what}", [it for it in told if it.startswith("packet")] == wanted, wanted)
        keys = [it for it in told if it.startswith("key")]
        verdict(f"keys of {what}", keys == [*key_lines(rows, lines_of(listed.stdout))], keys)
        checked = lines_of(opens(PROGRAM, "check", *policy, source=source).stdout)
        jobs_fit(source, what, [it for it in told if it.startswith("job")], checked, rows, policy)
        subpackets_fit(what, [it for it in told if it.startswith("sub")], checked, rows)


def forms(program):
    """What data of each form says, and data that is too short or too long for it."""
    packets = [*packets_in(f"{HERE}/tests/vectors/algorithms/rsa_2048.gpg")]
    embedded = next(body for kind, body in packets if kind == 2)
    seen = set()
    for kind, data in (
        (2, b"\xff\xfe\xfd\xfc"), (2, bytes(3)), (4, b"\xff"), (4, b""), (5, b"\1\x78"), (5, bytes(3)), (6, b"\0"), (6, b"[a]\0\0"), (6, b"a"),
        (11, b""), (11, b"\x09\7"), (12, b"\xc0\x11" + b"p" * 20), (12, bytes(21)), (16, b"12345678"), (16, bytes(9)), (20, bytes(8)),
        (20, b"\x80\0\0\1\0\1\0\2abc"), (20, b"\0\0\0\0\0\0\0\1x"), (20, b"\0\0\0\0\0\1\0\0x"), (20, b"\0\0\0\0\0\1\0\1x"),
        (29, b"\3"), (29, b"\1text"), (29, b""), (31, b"\1\x08"), (31, b"\x16\x0a" + b"d" * 64), (31, b"\1"), (32, embedded), (32, b"\4"),
        (33, b"\4" + b"p" * 20), (33, b"\6" + b"p" * 32), (33, b"\5" + b"p" * 20), (35, b"\6" + b"p" * 32), (39, b""), (39, b"\x09\2\7\3"),
        (39, b"\x09"), (101, b"x"),
    ):
        size = len(data) + 1
        head = bytes([size]) if size < 192 else bytes([192 + (size - 192 >> 8), size - 192 & 255])
        octets = b"".join(with_unhashed(packets, head + bytes([kind]) + data))
        told = [it for it in lines_of(run(program, "told", input=octets).stdout) if it.startswith("sub 0 hashed 0 ")]
        wanted = subpacket_line(0, 0, kind, data)
        verdict(f"what {kind} {data.hex()} says", told[:1] == [wanted], (told[:1], wanted))
        seen.add(model.plain(kind, data)[0])
    verdict("each form is seen", seen == {*range(14)}, seen)


def picked(octets, digits):
    """The certificates with another digit than 0, as the program writes each."""
    them = [run(PROGRAM, "split", "--nth", str(n), "--out", "binary", input=octets) for n, digit in enumerate(digits) if digit != "0"]
    return subprocess.CompletedProcess([], 0, b"".join(it.stdout for it in them if it.returncode == 0), b"")


def made(program):
    """Keyrings made of others are those that the program writes."""
    for source in SMALL + MADE + VECTORS:
        what = name_of(source)
        octets = opens(PROGRAM, "write", "--out", "binary", source=source)
        if octets.returncode:
            continue
        twice = [PROGRAM, "join", "--out", "binary"], octets.stdout * 2
        for words, told in (
            (["normalise"], run(PROGRAM, "normalise", "--out", "binary", input=octets.stdout)),
            (["merge"], run(PROGRAM, "join", "--merge", "--out", "binary", input=octets.stdout)),
            (["join"], run(*twice[0], input=twice[1])),
            *(([f"chosen={own},{none}" + "".join(f",{it}" for it in ids)],
               run(PROGRAM, "write", "--out", "binary", *["--own-signatures"][:own], *["--no-attributes"][:none],
                   *(it for number in ids for it in ("--user-id", str(number))), input=octets.stdout))
              for own in (0, 1) for none in (0, 1) for ids in ((), (0,), (1,), (7,))),
            *(([f"nth={n}"], run(PROGRAM, "split", "--nth", str(n), "--out", "binary", input=octets.stdout)) for n in (0, 1, 7)),
            *(([f"picked={digits}"], picked(octets.stdout, digits)) for digits in ("", "0", "1", "01", "90", "101", "0" * 40 + "1", "1" * 64)),
        ):
            ended = opens(program, *words, source=source)
            verdict(f"{words} of {what}", (ended.returncode, ended.stdout, ended.stderr) == (told.returncode, told.stdout, told.stderr), ended)


def faults(program):
    """Each input of docs/FAULTS.md, with its limits, is refused by the same line as by the program."""
    with open(f"{HERE}/docs/FAULTS.md", encoding="utf-8") as it:
        examples = re.findall(r"^    (.*\bopgp (?:list|show|octets).*)$", it.read(), re.M)
    verdict("there are examples of faults", len(examples) > 30, examples)
    seen = set()
    for example in examples:
        octets = subprocess.run(["bash", "-c", f"opgp() {{ cat; }}; {example}"], cwd=HERE, capture_output=True, check=False).stdout
        limits = [f"--{name}={value}" for name, value in re.findall(r"--(line|body|cert|input|pieces) (\d+)", example)]
        wanted, ended = run(PROGRAM, "list", *limits, input=octets), run(program, "told", *limits, input=octets)
        said = wanted.stderr if wanted.returncode else b""
        verdict(f"the fault of {example}", (ended.returncode, ended.stderr) == (wanted.returncode, said), (said, ended.stderr))
        seen.update(re.findall(rb"^\w+: (\w+)", said))
    verdict("most reasons are seen", len(seen) >= 33, sorted(seen))


def merged(source):
    """The packets of a keyring when it is merged, which files of verdicts are on."""
    return opens(PROGRAM, "join", "--merge", "--malformed", "keep", "--out", "binary", source=source).stdout


def verdict_files(program, room):
    """Files of verdicts: of a keyring what they say; any other file, and one on another keyring, is none."""
    def read(source, file):
        with open(f"{room}/verdicts", "wb") as it:
            it.write(file)
        ended = opens(program, f"verdicts={room}/verdicts", source=source)
        return ended.returncode, ended.stdout.decode().split(), ended.stderr

    seen, before = set(), b""
    for source in SMALL + MADE:
        binary = merged(source)
        lines = lines_of(run(PROGRAM, "check", input=binary).stdout)
        # The first that is undecided is good, the next one bad, and so on.
        for number, row in enumerate([it for it in range(len(lines)) if lines[it].endswith(" undecided")]):
            lines[row] = lines[row].replace("undecided", ("good", "bad", "undecided absent")[number % 3])
        digest = hashlib.sha256(binary).hexdigest().upper()
        head = f"verdicts by arithmetic of keyring sha256 {digest} rows {len(lines)}"
        file = "".join(f"{it}\n" for it in (head, *lines)).encode()
        wanted = "".join("1" if it.endswith(" good") else "2" if it.endswith(" bad") else "0" for it in lines)
        seen |= {*wanted}
        verdict(f"verdicts of {name_of(source)}", read(source, file) == (0, [it for it in (wanted, "0", "0") if it], b""), read(source, file))
        others = [b"", file[:-1], file + b"\n", file.partition(b"\n")[2], b"\n" + file, file.lower(), file.replace(b" rows ", b" rows 0"), file + file,
                  file.replace(digest.encode(), digest.lower().encode()), file.replace(b"arithmetic", b"policy"), before]  # fmt: skip
        if lines:
            others += ["".join(f"{it}\n" for it in (head, *lines, lines[-1])).encode(), "".join(f"{it}\n" for it in (head, *lines[:-1])).encode(),
                       file.replace(b"row 0 ", b"row 1 ", 1), file.replace(b"\n", b"\r\n")]  # fmt: skip
        for number, other in enumerate(others):
            verdict(f"no verdicts of {name_of(source)}, {number}", other == file or read(source, other) == (0, ["6", "0"], b""), read(source, other))
        before = file
    verdict("each verdict", seen == {*"012"}, seen)


def skipped(program, room):
    """How many octets outside of armored blocks were skipped, as the program says."""
    with open(f"{room}/empty", "wb") as it:
        it.write(b"")
    with open(SMALL[0], "rb") as it:
        key = it.read()
    for octets in (key, key + key, b"text\n" + key, key + b"\1", key + b"\n\x7f\n" + key, b"a\0b\n" + key + b"text\n" + key + b"end", key + bytes(70_000), model.dearmored(key, model.USUAL)[0][1]):
        with open(f"{room}/input", "wb") as it:
            it.write(octets)
        told = subprocess.run([PROGRAM, "list"], input=octets, capture_output=True, check=False).stderr.decode()
        count = (re.findall(r"^opgp: (\d+) octets outside of armored blocks were skipped; read a binary file by itself$", told, re.M) or ["0"])[0]
        ended = opens(program, f"verdicts={room}/empty", source=f"{room}/input")
        verdict(f"skipped in {len(octets)} octets", (ended.returncode, ended.stdout.decode().split()[-1]) == (0, count), (ended, told))


def registered():
    """The header has a name in code for each of the standard's numbers, beside the standard's name, and for no other."""
    tables = ("OPGP_PACKET_", "OPGP_KEY_", "OPGP_HASH_", "OPGP_SIGNATURE_", "OPGP_SUBPACKET_")
    found, numbers = {it: [] for it in tables}, HEADER[HEADER.index("registered numbers") : HEADER.index("Why a signature isn't hashed")]
    for name, number, said in re.findall(r"^    (OPGP_\w+) = (\w+),? +/\* (.*) \*/$", numbers, re.M):
        table = next(it for it in tables if name.startswith(it))
        found[table].append((int(number, 0), said))
    told = [(tables[int(table)], int(number), name) for table, number, name in model.names() if int(table) < len(tables)]
    verdict("the registered numbers", sorted((table, *it) for table, rows in found.items() for it in rows) == sorted(told), found)
    verdict("their names differ", len(set(re.findall(r"^    (OPGP_\w+) =", HEADER, re.M))) == len(re.findall(r"^    (OPGP_\w+) =", HEADER, re.M)))


def manuals(room, program):
    """The manual of the library has each call as the header declares it, and that of opgp-verify each option; both are well-formed."""
    with open(f"{HERE}/man/libopgp.3", encoding="ascii") as it:
        text = it.read()
    declared = [re.sub(r"\s+", " ", it) for it in re.findall(r"^OPGP_API ([^;]*;)", HEADER, re.M | re.S)]
    verdict("the calls in libopgp.3", sorted(declared) == sorted(re.findall(r"^(?:uint32_t|void|char|const char|unsigned|size_t|opgp_span) .*;$", text[text.index(".SH CALLS") : text.index(".SH EXAMPLE")], re.M)))
    with open(f"{HERE}/man/opgp-verify.1", encoding="ascii") as it:
        pages = it.read().replace("\\-", "-")
    told = run(program, "--help").stderr.decode() if os.path.exists(program) else ""
    verdict("the options in opgp-verify.1", all(f"{it}" in pages for it in re.findall(r"--\w+", told)), told)
    if shutil.which("man"):
        for page in ("libopgp.3", "opgp-verify.1"):
            shown = run("man", "--warnings", "-l", f"{HERE}/man/{page}", env={**os.environ, "MANWIDTH": "120", "LC_ALL": "C.UTF-8"})
            verdict(f"{page} by man", shown.returncode == 0 and not [it for it in shown.stderr.splitlines() if b"can't break line" not in it], shown.stderr)
    else:
        left_out("man")


# ---- Signatures over a document


def packet(body):
    """A signature's packet in the current format (4.2.1)."""
    size = len(body)
    return b"\xc2" + (bytes([size]) if size < 192 else bytes([192 + (size - 192 >> 8), size - 192 & 255])) + body


def subpackets(*pairs):
    return b"".join(bytes([len(data) + 1, kind]) + data for kind, data in pairs)


class Over:
    """A signature over a document: its packet, and what is wanted of its row (5.2.3, 5.2.4)."""

    def __init__(self, version, kind, number_of_hash, salt=b"", hashed=(), unhashed=(), is_bad=True):
        width = 2 if version == 4 else 4
        self.version, self.kind, self.hash, self.salt, self.is_bad = version, kind, number_of_hash, salt, is_bad
        self.subpackets = [(1, *it) for it in hashed] + [(0, *it) for it in unhashed]
        area = subpackets(*hashed)
        front = bytes([version, kind, 22, number_of_hash]) + len(area).to_bytes(width, "big") + area
        self.behind = front + bytes([version, 255]) + len(front).to_bytes(4, "big")
        other = subpackets(*unhashed)
        self.body = front + len(other).to_bytes(width, "big") + other
        self.created = next((int.from_bytes(data, "big") for kind, data in hashed if kind == 2), None)
        self.issuer = next((data[1:] for kind, data in hashed if kind == 33), b"")

    def octets(self, document):
        """Its packet, with the left octets of its digest, or their complement."""
        self.left = bytes(it ^ (255 * self.is_bad) for it in (self.digest(document) or b"\1\2")[:2])
        salt = bytes([len(self.salt)]) + self.salt if self.version == 6 else b""
        return packet(self.body + self.left + salt + b"\0\x09\1\1" + b"\0\1\1")

    def why(self, document):
        if self.kind not in (0, 1):
            return 2
        if self.hash not in HASHES:
            return 5
        return 6 if self.kind == 1 and re.search(rb"\r(?!\n)", document) else 0

    def digest(self, document):
        if self.why(document):
            return None
        shown = re.sub(rb"\r?\n", b"\r\n", document) if self.kind == 1 else document
        return hashlib.new(HASHES[self.hash], self.salt + shown + self.behind).digest()

    def lines(self, row, document, prints):
        digest = self.digest(document) or b""
        signer = prints.index(digits(self.issuer)) if digits(self.issuer) in prints else None
        front = f"front {digits(self.salt)} behind {digits(self.behind)} zeros 1"
        return [f"job {row} - - {row} - {dash(signer)} {dash(self.created)} {digits(self.issuer)} why {self.why(document)} v{self.version} type"
                f" {self.kind:02X} alg 22 hash {self.hash} left {digits(self.left)} bad {int(self.is_bad and digest != b'')} digest"
                f" {digits(digest)} 0101 01 {front}"]

    def sub_lines(self, row):
        return [f"sub - - {row} - hashed {is_hashed} kind {kind & 127} critical {kind >> 7} {digits(data)}"
                for is_hashed, kind, data in self.subpackets]


def signatures_over(prints):
    """Signatures of each kind: types 00, 01 and others, each hash algorithm, with and without subpackets, of both versions."""
    made_at, known = (2, b"\x60\0\0\1"), (33, b"\4" + bytes.fromhex(prints[-1]))
    for kind in (0, 1):
        for number in (*HASHES, 1, 3, 12):
            yield Over(4, kind, number, hashed=(made_at, known), unhashed=((16, bytes(8)), (20 | 128, bytes(8))), is_bad=kind == 0)
        yield Over(4, kind, 8)
        yield Over(4, kind, 8, hashed=((33, b"\4" + b"p" * 20), made_at), is_bad=False)
        for number, size in ((8, 16), (9, 24), (10, 32), (11, 16)):
            yield Over(6, kind, number, salt=bytes(range(size)), hashed=(made_at,), is_bad=number == 8)
    for kind in (2, 0x10, 0x13, 0x18, 0x1F, 0x20, 0x50, 0xFF):
        yield Over(4, kind, 8, hashed=(made_at,))


def documents(program):
    """Signatures over documents, which come in pieces of any size: their rows, and the digests of what they hash."""
    keys = opens(PROGRAM, "write", "--out", "binary", source=SMALL[0]).stdout
    prints = [it.split()[6] for it in lines_of(opens(PROGRAM, "list", source=SMALL[0]).stdout) if it[:3] in ("pub", "sub")]
    texts = [b"", b"a", b"\n", b"\r\n", b"a\nb", b"a\r\nb\nc\r\n", b"\0\n\0\r\n\0", b"\n\n\r\n\n", b"\r", b"a\rb\n", b"a\r", b"\r\r\n", b"\r\n\r"]
    texts += [bytes(range(256)), b"line\n" * 100, (b"x" * 63 + b"\r\n") * 7 + b"end", b"y" * 1000]
    for text in texts:
        made_here = [*signatures_over(prints)]
        packets = b"".join(it.octets(text) for it in made_here)
        wanted = [line for row, it in enumerate(made_here) for line in it.lines(row, text, prints)]
        wanted += [line for row, it in enumerate(made_here) for line in it.sub_lines(row)]
        for piece in range(71):
            ended = run(program, f"document={piece},{len(packets)},{len(keys)}", input=packets + keys + text)
            verdict(f"signatures over {text[:20]} in pieces of {piece}", (ended.returncode, lines_of(ended.stdout)) == (0, wanted),
                    (ended.stderr, [*zip(lines_of(ended.stdout), wanted)][:1]))
        block = model.armor(packets, b"SIGNATURE")
        ended = run(program, f"document=0,{len(block)},0", input=block + text)
        wanted = [line for row, it in enumerate(made_here) for line in it.lines(row, text, [])]
        wanted += [line for row, it in enumerate(made_here) for line in it.sub_lines(row)]
        verdict(f"armored signatures over {text[:20]}, without keys", (ended.returncode, lines_of(ended.stdout)) == (0, wanted), ended.stderr)
    old = packet(b"\3\5\0\1\2\3\4" + b"IDENTITY" + b"\x11\x08\xab\xcd\0\1\1\0\1\1")
    ended = run(program, f"document=1,{len(old)},0", input=old + b"text")
    said = "job 0 - - 0 - - 16909060 4944454E54495459 why 1 v3 type 00 alg 17 hash 8 left ABCD bad 0 digest - 01 01 front status 6 behind status 6 zeros 1"
    verdict("a signature of version 3", (ended.returncode, lines_of(ended.stdout)) == (0, [said]), ended)
    short = packet(b"\4")
    ended = run(program, "--policies=2", f"document=1,{len(short)},0", input=short + b"text")
    said = "job 0 - - 0 - - - - why 1 v0 type 00 alg 0 hash 0 left 0000 bad 0 digest - - - front status 6 behind status 6 zeros 1"
    verdict("a malformed signature", (ended.returncode, lines_of(ended.stdout)) == (0, [said]), ended)
    one = Over(4, 0, 8).octets(b"")
    for many, status in ((64, 0), (65, 1)):
        ended = run(program, f"document=1,{many * len(one)},0", input=one * many)
        said = ended.stdout.count(b"job") == 64 if status == 0 else ended.stderr == b"too many signatures\n"
        verdict(f"{many} signatures", ended.returncode == status and said, ended)
    for octets, line in ((keys, b"composition: NotASignature"), (b"", b"composition: NotASignature"), (short, b"body: ")):
        ended = run(program, f"document=1,{len(octets)},0", input=octets)
        verdict(f"{octets[:4]} as signatures", ended.returncode == 1 and ended.stderr.startswith(line), ended)
    counted("calls on documents", run(program, "documents", "documents_wanting", "canonical_texts", "blocks", stdin=subprocess.DEVNULL))
    for text in texts:
        place = text.replace(b"\r\n", b"..").find(b"\r")
        line = f"text: StrayReturn block 0 at {place} inner 0\n".encode()
        for piece in (*range(71), 1 << 20):
            ended = run(program, f"canonical={piece}", input=text)
            holds = (ended.returncode, ended.stdout) == (0, re.sub(rb"\r?\n", b"\r\n", text)) if place < 0 else (ended.returncode, ended.stderr) == (1, line)
            verdict(f"canonical text of {text[:20]} in pieces of {piece}", holds, ended)


# The standard's registered numbers, by the tables of RFC 9580: types of packets (5), public-key algorithms (9.1), hash algorithms (9.5), types
# of signatures (5.2.1) and kinds of subpackets (5.2.3.7).
REGISTERED = (
    PACKET_TYPES,
    {
        1: "RSA (Encrypt or Sign)", 2: "RSA Encrypt-Only", 3: "RSA Sign-Only", 16: "Elgamal (Encrypt-Only)",
        17: "DSA (Digital Signature Algorithm)", 18: "ECDH public key algorithm", 19: "ECDSA public key algorithm", 22: "EdDSALegacy",
        25: "X25519", 26: "X448", 27: "Ed25519", 28: "Ed448",
    },
    {
        1: "MD5", 2: "SHA-1", 3: "RIPEMD-160", 8: "SHA2-256", 9: "SHA2-384", 10: "SHA2-512", 11: "SHA2-224", 12: "SHA3-256",
        14: "SHA3-512",
    },
    {
        0x00: "Binary Signature", 0x01: "Text Signature", 0x02: "Standalone Signature", 0x10: "Generic Certification Signature",
        0x11: "Persona Certification Signature", 0x12: "Casual Certification Signature", 0x13: "Positive Certification Signature",
        0x18: "Subkey Binding Signature", 0x19: "Primary Key Binding Signature", 0x1F: "Direct Key Signature",
        0x20: "Key Revocation Signature", 0x28: "Subkey Revocation Signature", 0x30: "Certification Revocation Signature",
        0x40: "Timestamp Signature", 0x50: "Third-Party Confirmation Signature",
    },
    {
        2: "Signature Creation Time", 3: "Signature Expiration Time", 4: "Exportable Certification", 5: "Trust Signature",
        6: "Regular Expression", 7: "Revocable", 9: "Key Expiration Time", 11: "Preferred Symmetric Ciphers for v1 SEIPD",
        12: "Revocation Key", 16: "Issuer Key ID", 20: "Notation Data", 21: "Preferred Hash Algorithms",
        22: "Preferred Compression Algorithms", 23: "Key Server Preferences", 24: "Preferred Key Server", 25: "Primary User ID",
        26: "Policy URI", 27: "Key Flags", 28: "Signer's User ID", 29: "Reason for Revocation", 30: "Features", 31: "Signature Target",
        32: "Embedded Signature", 33: "Issuer Fingerprint", 35: "Intended Recipient Fingerprint", 39: "Preferred AEAD Ciphersuites",
    },
)  # fmt: skip


def names(program):
    """The names of numbers are those of the documents, and no others; and those of registered numbers the standard's."""
    told = [f"{table} {number} {name}" for table, number, name in model.names()]
    ended = run(program, "named", stdin=subprocess.DEVNULL)
    verdict("the names of numbers", ended.returncode == 0 and lines_of(ended.stdout) == told and len(told) > 100,
            set(lines_of(ended.stdout)) ^ set(told))
    standard = [f"{table} {number} {name}" for table, rows in enumerate(REGISTERED) for number, name in sorted(rows.items())]
    found = [it for it in lines_of(ended.stdout) if int(it.split(" ")[0]) < len(REGISTERED)]
    verdict("the names of registered numbers", found == standard, set(found) ^ set(standard))


# ---- Material


# What algorithms have (9.1): the public material of a key (5.5.5) and the fields of a signature (5.2.3), and the fields that the library
# shows of each: integers without their counts of bits, and octets. What isn't registered is one field.
INTEGERS = (("000901FF", "01FF"), ("0011010001", "010001"), ("000101", "01"), ("000203", "03"))
CURVE, POINT, PARAMETERS = ("022A03", "2A03"), ("000740", "40"), ("03010807", "010807")
KEY_FIELDS = {
    **dict.fromkeys((1, 2, 3), INTEGERS[:2]), 16: INTEGERS[:3], 17: INTEGERS, 18: (CURVE, POINT, PARAMETERS), 19: (CURVE, POINT), 22: (CURVE, POINT),
    25: (("55" * 32,) * 2,), 26: (("55" * 56,) * 2,), 27: (("55" * 32,) * 2,), 28: (("55" * 57,) * 2,),
}  # fmt: skip
MADE_FIELDS = {
    **dict.fromkeys((1, 3), INTEGERS[:1]), **dict.fromkeys((17, 19, 22), INTEGERS[:2]), 27: (("55" * 64,) * 2,), 28: (("55" * 114,) * 2,),
}  # fmt: skip
OTHER_FIELDS = (("616E79",) * 2,)


def materials(program):
    """The fields of keys and of signatures of each algorithm, in versions 3, 4 and 6, in one keyring; one of version 3 that no rule reads has
    none."""
    octets, keys, jobs = b"", [], []
    for algorithm in range(256):
        for version in (4, 6):
            fields = KEY_FIELDS.get(algorithm, OTHER_FIELDS)
            material = bytes.fromhex("".join(it for it, _ in fields))
            count = len(material).to_bytes(4, "big") if version == 6 else b""
            octets += b"\xc6\xff" + sized(bytes([version]) + bytes(4) + bytes([algorithm]) + count + material)
            keys.append(" ".join([*(it for _, it in fields), "-", "-", "-", "-"][:4]))
            for of in (3, 4, 6):
                fields = MADE_FIELDS.get(algorithm, OTHER_FIELDS)
                material = bytes.fromhex("".join(it for it, _ in fields))
                if of == 3:
                    body = b"\3\5\x1f" + bytes(12) + bytes([algorithm, 8]) + b"\xab\xcd"
                    fields = fields if algorithm in (1, 3, 17) else ()
                else:
                    body = bytes([of, 0x1F, algorithm, 8]) + bytes(2 * (2 if of == 4 else 4)) + b"\xab\xcd" + (b"\x10" + bytes(16)) * (of == 6)
                octets += b"\xc2\xff" + sized(body + material)
                jobs.append(" ".join([*(it for _, it in fields), "-", "-"][:2]))
    ended = run(program, "told", input=octets)
    told = lines_of(ended.stdout)
    found = [" ".join(it.split(" ")[-6:-2]) for it in told if it.startswith("key ")]
    verdict("the fields of keys of each algorithm", found == keys, [*zip(found, keys)][:3])
    found = [" ".join(it.split(" ")[-4:-2]) for it in told if it.startswith("job ")]
    verdict("what signatures of each algorithm made", found == jobs, [it for it in zip(found, jobs) if it[0] != it[1]][:3])


def sized(octets):
    return len(octets).to_bytes(4, "big") + octets


# ---- opgp-verify


def counts_of(rows):
    """The line on standard error that counts these rows."""
    found = verdicts_of(rows)
    counts = [sum(it.startswith(word) for it in found) for word in ("good", "bad", "undecided")]
    return f"opgp-verify: {counts[0]} good, {counts[1]} bad, {counts[2]} undecided, {len(found) - sum(counts)} not hashed\n".encode()


def verdicts_of(lines):
    return [re.sub(r".* : (?:none (\w+)|.* verdict (.*))", r"\1\2", it) for it in lines]


def words(program, env):
    sample = SMALL[1]
    good = opens(program, source=sample, env=env)
    for given in ([sample], ["-"], ["--", sample], ["--policy", "usual"], ["--policy=usual", sample], [sample, "--policy", "any"]):
        ended = opens(program, *given, source=sample, env=env)
        verdict(f"opgp-verify {given}", (ended.returncode, ended.stdout, ended.stderr) == (0, good.stdout, counts_of(lines_of(good.stdout))), ended)
    asked = run(program, "--help", env=env)
    verdict("its help", asked.returncode == 2 and asked.stdout == b"" and b"\nUsage: opgp-verify " in asked.stderr, asked)
    verdict("its help, shortly", run(program, "x", "-h", env=env).stderr == asked.stderr)
    told = run(program, "--version", env=env)
    verdict("its version", told.returncode == 0 and re.fullmatch(rb"opgp-verify [\d.]+, by OpenSSL .*\n", told.stdout), told)
    for given, said in (
        (["--policy"], "a value is required for '--policy <POLICY>'"),
        (["--policy="], "a value is required for '--policy <POLICY>'"),
        (["--policy", "--policy"], "a value is required for '--policy <POLICY>'"),
        (["--policy", "some"], "invalid value 'some' for '--policy <POLICY>'"),
        (["--policy", "any", "--policy=any"], "the argument '--policy <POLICY>' cannot be used multiple times"),
        (["--policy", "any", "--policy"], "the argument '--policy <POLICY>' cannot be used multiple times"),
        (["--require"], "a value is required for '--require <WHAT>'"),
        (["--require", "bad"], "invalid value 'bad' for '--require <WHAT>'"),
        (["--require=good", "--require", "good"], "the argument '--require <WHAT>' cannot be used multiple times"),
        (["--requires=good"], "unexpected argument '--requires=good' found"),
        (["--loud"], "unexpected argument '--loud' found"),
        (["--policyx"], "unexpected argument '--policyx' found"),
        (["-x"], "unexpected argument '-x' found"),
        (["a", "b"], "unexpected argument 'b' found"),
        (["--", "a", "--policy"], "unexpected argument '--policy' found"),
    ):
        ended = run(program, *given, env=env, stdin=subprocess.DEVNULL)
        verdict(f"opgp-verify {given}", ended.returncode == 2 and ended.stdout == b"" and said in ended.stderr.decode(), ended)
    for given, said in ((["/nothing/here"], "can't read '/nothing/here': No such file"), (["/"], "opgp-verify: read failed")):
        ended = run(program, *given, env=env, stdin=subprocess.DEVNULL)
        verdict(f"opgp-verify {given}", ended.returncode == 3 and ended.stdout == b"" and said in ended.stderr.decode(), ended)
    with open("/dev/full", "wb") as full, open(sample, "rb") as it:
        ended = subprocess.run([program], stdin=it, stdout=full, stderr=subprocess.PIPE, env=env, check=False)
    verdict("opgp-verify to a full device", (ended.returncode, ended.stderr) == (3, b"opgp-verify: write failed\n"), ended)
    absent = SMALL[0]  # it has no signature
    for source, status in ((sample, 0), (absent, 1), (os.devnull, 1)):
        ended, usual = opens(program, "--require", "good", source=source, env=env), opens(program, source=source, env=env)
        verdict(f"a good signature required of {name_of(source)}", (ended.returncode, ended.stdout, ended.stderr) == (
            max(status, usual.returncode), usual.stdout, counts_of(lines_of(usual.stdout))), (ended, usual))
    for octets in (b"text", b"\xc6\1\3", b"\xcd\1a", b"\xc0"):
        ended = run(program, input=octets, env=env)
        verdict(f"opgp-verify of {octets}", (ended.returncode, ended.stdout, ended.stderr)
                == (1, b"", run(PROGRAM, "list", input=octets).stderr), ended)


def rows_verified(program, env, source, policy):
    """The rows' verdicts, whose lines must be those of `check` but for the verdict; bad ones stay bad."""
    checked = lines_of(opens(PROGRAM, "check", source=source).stdout)
    ended = opens(program, "--policy", policy, source=source, env=env)
    rows, what = lines_of(ended.stdout), f"{name_of(source)} with {policy}"
    bare = [[re.sub(r" verdict .*", "", it) for it in lines] for lines in (rows, checked)]
    verdict(f"rows of {what}", bare[0] == bare[1], ended.stderr)
    found = verdicts_of(rows)
    verdict(f"bad rows of {what}", all(new == "bad" for new, old in zip(found, verdicts_of(checked)) if old == "bad"))
    verdict(f"status of {what}", ended.returncode == int("bad" in found) and ended.stderr == counts_of(rows), ended)
    return found


def made_verified(program, env):
    """The certificates of each algorithm; and with each octet of their first signature changed, of which none is good."""
    with open(f"{HERE}/tests/vectors/algorithms/verdicts.txt", encoding="ascii") as it:
        told = {name: wanted for name, *wanted in (re.split(r" *\| *", line.strip()) for line in it if line[0] != "#")}
    verdict("verdicts of each certificate", [f"{HERE}/tests/vectors/algorithms/{it}.gpg" for it in sorted(told)] == MADE)
    for source in MADE:
        name = os.path.basename(source)[:-4]
        for policy, wanted in zip(("usual", "any"), told[name]):
            found = rows_verified(program, env, source, policy)
            verdict(f"verdicts of {name} with {policy}", found == wanted.split(" ; "), found)
        with open(source, "rb") as it:
            octets = it.read()
        body = next(body for kind, body in packets_in(source) if kind == 2)
        begin = octets.index(body)
        # Of the octets before its fields, whose unhashed area isn't signed, every bit of the type; of the others one bit of each.
        made, counts = 0, set()
        for field in reversed(made_fields(body)[1]):
            made += 2 + len(field)
            counts |= {begin + len(body) - made, begin + len(body) - made + 1}  # in version 4 these may be off
        for at in {begin + 1, *range(begin + len(body) - made, begin + len(body), 1 + made // 64)} - counts:
            changed = octets[:at] + bytes([octets[at] ^ 1 << at % 8]) + octets[at + 1 :]
            ended = run(program, "--policy", "any", input=changed, env=env)
            found = verdicts_of(lines_of(ended.stdout))
            verdict(f"{name} with octet {at} changed", ended.returncode in (0, 1) and "good" not in found[:1], ended)


def with_their_digests(source):
    """The packets of a file, where each signature states how its digest begins."""
    digests = [it.split()[19] for it in lines_of(opens(PROGRAM, "check", source=source).stdout) if " nested - " in it]
    octets = b""
    for kind, body in packets_in(source):
        if kind == 2:
            at = body.index(made_fields(body)[0], 8)
            body = body[:at] + bytes.fromhex(digests.pop(0)) + body[at + 2 :]
        octets += bytes([0xC0 | kind, 255]) + len(body).to_bytes(4, "big") + body
    return octets


def disputed_verified(program, env):
    """Signatures that name keys of the other version, and the standard's own."""
    folder = f"{HERE}/tests/vectors/disputed"
    for name, wanted in (("version_4_names_6", "undecided version"), ("version_6_names_4", "undecided version"),
                         ("left_octets_of_version_6", "bad"), ("unhashed_fingerprint", "undecided absent"), ("version_3", "opaque")):
        found = rows_verified(program, env, f"{folder}/{name}.gpg", "any")
        if wanted.startswith("undecided"):  # their digests don't begin as they state
            verdict(f"verdicts of {name}", "bad" in found and wanted not in found, found)
            found = verdicts_of(lines_of(run(program, "--policy", "any", input=with_their_digests(f"{folder}/{name}.gpg"), env=env).stdout))
        verdict(f"verdicts of {name}", wanted in found, found)
    found = rows_verified(program, env, SMALL[1], "usual")
    verdict("the signatures of the standard's certificate", found == ["good", "good"], found)
    octets = opens(PROGRAM, "write", "--out", "binary", source=SMALL[1]).stdout
    for at in range(2, 223):
        changed = octets[:at] + bytes([octets[at] ^ 1]) + octets[at + 1 :]
        found = verdicts_of(lines_of(run(program, input=changed, env=env).stdout))
        verdict(f"the standard's certificate with octet {at} changed", "good" not in found[:1], found)


def with_unhashed(packets, subpacket):
    """These packets, with one more subpacket at the front of the unhashed area of each version 4 signature."""
    for kind, body in packets:
        if kind == 2 and body[0] == 4:
            at = 6 + int.from_bytes(body[4:6], "big")
            size = int.from_bytes(body[at : at + 2], "big") + len(subpacket)
            body = body[:at] + size.to_bytes(2, "big") + subpacket + body[at + 2 :]
        yield bytes([0xC0 | kind, 255]) + len(body).to_bytes(4, "big") + body


def critical_verified(program, env):
    """A signature with a critical subpacket that isn't known is undecided, whatever its arithmetic says."""
    source = f"{HERE}/tests/vectors/algorithms/rsa_2048.gpg"
    packets = [*packets_in(source)]
    alone = verdicts_of(lines_of(opens(program, source=source, env=env).stdout))
    verdict("rows of RSA are good", alone and {*alone} == {"good"}, alone)
    notation = bytes(4) + b"\0\1\0\1ab"
    for what, subpacket, wanted in (
        ("an unknown kind", b"\2\xe5x", "undecided critical"), ("one that isn't critical", b"\2\x65x", "good"),
        ("a kind that is known", b"\2\x87\1", "good"), ("a form that is wrong", b"\3\x82ab", "undecided critical"),
        ("a notation", bytes([len(notation) + 1, 0x94]) + notation, "undecided critical"),
        ("a notation that isn't critical", bytes([len(notation) + 1, 0x14]) + notation, "good"),
    ):
        for policy in ("usual", "any"):
            octets = b"".join(with_unhashed(packets, subpacket))
            ended = run(program, "--policy", policy, input=octets, env=env)
            lines = lines_of(ended.stdout)
            found = verdicts_of(lines)
            expected = [wanted if " nested - " in it else "good" for it in lines]
            verdict(f"a critical subpacket of {what} with {policy}", len(found) == len(alone) and found == expected, found)


# ---- Keys and signatures that are made here: integers that hashes spread, signed by the algorithms' own rules.

# What PKCS #1 (RFC 8017, 9.2) puts before a digest, by the number of the hash.
DIGEST_INFO = {
    2: "3021300906052B0E03021A05000414", 8: "3031300D060960864801650304020105000420", 9: "3041300D060960864801650304020205000430",
    10: "3051300D060960864801650304020305000440", 11: "302D300D06096086480165030402040500041C",
}  # fmt: skip
# Curves (SEC 2, RFC 5639): identifier, p, a, b, x and y of the base point, its order.
CURVES = {
    "P-384": ("2B81040022", (1 << 384) - (1 << 128) - (1 << 96) + (1 << 32) - 1, -3,
              0xB3312FA7E23EE7E4988E056BE3F82D19181D9C6EFE8141120314088F5013875AC656398D8A2ED19D2A85C8EDD3EC2AEF,
              0xAA87CA22BE8B05378EB1C71EF320AD746E1D3B628BA79B9859F741E082542A385502F25DBF55296C3A545E3872760AB7,
              0x3617DE4A96262C6F5D9E98BF9292DC29F8F41DBD289A147CE9DA3113B5F0B8C00A60B1CE1D7E819D7A431D7C90EA0E5F,
              0xFFFFFFFFFFFFFFFFFFFFFFFFFFFFFFFFFFFFFFFFFFFFFFFFC7634D81F4372DDF581A0DB248B0A77AECEC196ACCC52973),
    "brainpoolP384r1": ("2B240303020801010B", 0x8CB91E82A3386D280F5D6F7E50E641DF152F7109ED5456B412B1DA197FB71123ACD3A729901D1A71874700133107EC53,
                        0x7BC382C63D8C150C3C72080ACE05AFA0C2BEA28E4FB22787139165EFBA91F90F8AA5814A503AD4EB04A8C7DD22CE2826,
                        0x04A8C7DD22CE28268B39B55416F0447C2FB77DE107DCD2A62E880EA53EEB62D57CB4390295DBC9943AB78696FA504C11,
                        0x1D1C64F068CF45FFA2A63A81B7C13F6B8847A3E77EF14FE3DB7FCAFE0CBD10E8E826E03436D646AAEF87B2E247D4AF1E,
                        0x8ABE1D7520F9C2A45CB1EB8E95CFD55262B70B29FEEC5864E19C054FF99129280E4646217791811142820341263C5315,
                        0x8CB91E82A3386D280F5D6F7E50E641DF152F7109ED5456B31F166E6CAC0425A7CF3AB6AF6B7FC3103B883202E9046565),
}  # fmt: skip
# How far behind what a seed spreads to the prime is, in steps of two, or of two times a prime.
STEPS = {
    "2047 p": 323, "2047 q": 1, "2048 p": 99, "2048 q": 515, "2048 224 of q": 120, "2048 224 of p": 872, "2047 224 of q": 75,
    "2047 224 of p": 958, "2048 160 of q": 72, "2048 160 of p": 1672,
}  # fmt: skip


def spread(seed, bits):
    """An integer of so many bits, whose two highest are set."""
    octets = b"".join(hashlib.sha512(f"{seed}/{it}".encode()).digest() for it in range(bits // 512 + 1))
    return int.from_bytes(octets, "big") % (1 << bits - 2) | 3 << bits - 2


def is_prime(n):
    odd = n - 1
    while odd % 2 == 0:
        odd //= 2
    for base in (2, 3, 5, 7):
        power, exponent = pow(base, odd, n), odd
        while exponent != n - 1 and power not in (1, n - 1):
            power, exponent = power * power % n, exponent * 2
        if power != n - 1 and exponent % 2 == 0:
            return False
    return True


def prime(seed, bits, divisor=1):
    """A prime of so many bits; one more than a multiple of the divisor, if there is one."""
    first = spread(seed, bits) // (2 * divisor) * (2 * divisor) + 1
    found = first + 2 * divisor * STEPS[seed]
    if found.bit_length() != bits or not is_prime(found):
        raise ValueError(f"tests/bindings/capi.py: {seed} leads to no prime of {bits} bits")
    return found


def integer(n, loose=0):
    """A multiprecision integer (3.2), behind so many octets 0 that its count of bits counts."""
    octets = bytes(loose) + n.to_bytes((n.bit_length() + 7) // 8, "big")
    bits = 8 * len(octets) if loose else n.bit_length()
    return bits.to_bytes(2, "big") + octets


def two_integers(r, s):
    return integer(r) + integer(s)


def padded(digest, number_of_hash, size):
    """What RSA raises to its secret exponent (RFC 8017, 9.2)."""
    info = bytes.fromhex(DIGEST_INFO[number_of_hash]) + digest
    return int.from_bytes(b"\0\1" + b"\xff" * (size - 3 - len(info)) + b"\0" + info, "big")


class Rsa:
    def __init__(self, bits):
        p, q = prime(f"{bits} p", bits - bits // 2), prime(f"{bits} q", bits // 2)
        self.n, self.secret = p * q, pow(65_537, -1, (p - 1) * (q - 1))
        self.material = two_integers(self.n, 65_537)
        self.size = (bits + 7) // 8

    def sign(self, number_of_hash, of=0):
        """Signs digests; under the name of this hash."""
        return lambda digest: pow(padded(digest, of or number_of_hash, self.size), self.secret, self.n)


class Dsa:
    """FIPS 186-4, 4.6."""

    def __init__(self, bits, bits_of_q):
        self.q = prime(f"{bits} {bits_of_q} of q", bits_of_q)
        self.p = prime(f"{bits} {bits_of_q} of p", bits, self.q)
        self.g = pow(2, (self.p - 1) // self.q, self.p)
        self.secret = spread("secret", bits_of_q - 1)
        self.y = pow(self.g, self.secret, self.p)
        self.material = b"".join(map(integer, (self.p, self.q, self.g, self.y)))

    def sign(self, digest):
        k = spread(digest.hex(), self.q.bit_length() - 1)
        r = pow(self.g, k, self.p) % self.q
        it = int.from_bytes(digest, "big") >> max(0, 8 * len(digest) - self.q.bit_length())
        return r, pow(k, -1, self.q) * (it + self.secret * r) % self.q


class Curve:
    """ECDSA over a curve (FIPS 186-4, 6.4)."""

    def __init__(self, name):
        identifier, self.p, self.a, self.b, *base, self.order = CURVES[name]
        self.base, self.identifier = tuple(base), bytes.fromhex(identifier)
        if (base[1] ** 2 - base[0] ** 3 - self.a * base[0] - self.b) % self.p or self.times(self.order) is not None:
            raise ValueError(f"tests/bindings/capi.py: {name} isn't that curve")
        self.secret = spread("secret", 380)
        self.point = self.octets(self.times(self.secret))

    def octets(self, point):
        return b"\4" + b"".join(it.to_bytes(48, "big") for it in point)

    def plus(self, one, other):
        if one is None or other is None:
            return one or other
        if one[0] == other[0] and (one[1] + other[1]) % self.p == 0:
            return None
        top, bottom = (3 * one[0] ** 2 + self.a, 2 * one[1]) if one == other else (other[1] - one[1], other[0] - one[0])
        slope = top * pow(bottom, -1, self.p) % self.p
        x = (slope**2 - one[0] - other[0]) % self.p
        return x, (slope * (one[0] - x) - one[1]) % self.p

    def times(self, count):
        found, more = None, self.base
        while count:
            found = self.plus(found, more) if count & 1 else found
            more, count = self.plus(more, more), count >> 1
        return found

    def sign(self, digest):
        k = spread(digest.hex(), 380)
        r = self.times(k)[0] % self.order
        it = int.from_bytes(digest, "big") >> max(0, 8 * len(digest) - 384)
        return r, pow(k, -1, self.order) * (it + self.secret * r) % self.order

    def material(self, point, identifier=None):
        identifier = identifier or self.identifier
        return bytes([len(identifier)]) + identifier + integer(int.from_bytes(point, "big"))


def certified(algorithm, material, made, number_of_hash=8, signed_by=0, more=b"", changes_left=0):
    """A version 4 key and a direct key signature (5.2.4), which its key made, or one of this algorithm; with more subpackets."""
    key = b"\4" + bytes(4) + bytes([algorithm]) + material
    area = b"\x16\x21\4" + model.fingerprint(key) + more
    front = bytes([4, 0x1F, signed_by or algorithm, number_of_hash]) + len(area).to_bytes(2, "big") + area
    digest = hashlib.new(HASHES[number_of_hash], model.key_octets(key) + front + b"\4\xff" + len(front).to_bytes(4, "big")).digest()
    body = front + b"\0\0" + digest[:1] + bytes([digest[1] ^ changes_left]) + made(digest)
    return b"".join(bytes([0xC0 | kind, 255]) + len(it).to_bytes(4, "big") + it for kind, it in ((6, key), (2, body)))


CRITICAL = b"\2\xe5x"  # a critical subpacket of an unknown kind


def by_rsa_here():
    """RSA (5.2.3.1): sizes of keys, hashes, both numbers, and integers that no key or signature has."""
    small, large = Rsa(2047), Rsa(2048)
    for key, usual in ((small, "undecided small-key"), (large, "good")):
        for number_of_hash in (8, 9, 10, 11):
            sign = key.sign(number_of_hash)
            yield f"RSA of {key.n.bit_length()} by {number_of_hash}", certified(1, key.material, lambda it: integer(sign(it)), number_of_hash), usual, "good"
        sign = key.sign(8)
        yield "with octets 0 in front", certified(1, key.material, lambda it: integer(sign(it), 3)), usual, "good"
        yield "by SHA-1", certified(1, key.material, lambda it: integer(key.sign(2)(it)), 2), "undecided weak-hash", "good"
        yield "under another hash", certified(1, key.material, lambda it: integer(key.sign(8, 9)(it))), "undecided small-key" if key is small else "bad", "bad"
        yield "and its modulus more", certified(1, key.material, lambda it: integer(sign(it) + key.n)), None, "bad"
        for n in (0, 1, key.n - 1, key.n, (1 << 2056) - 1):
            yield f"a signature of {n.bit_length()} bits", certified(1, key.material, lambda it: integer(n)), None, "bad"
    sign = large.sign(8)
    made = lambda it: integer(sign(it))
    for algorithm, signed_by in ((1, 3), (3, 1), (3, 3)):
        yield f"keys of {algorithm}, signed as {signed_by}", certified(algorithm, large.material, made, 8, signed_by), "good", "good"
    for algorithm, signed_by in ((2, 1), (2, 3), (17, 1), (22, 3), (200, 1)):
        material = {2: large.material, 17: two_integers(7, 7) * 2, 22: b"\1\0" + integer(7), 200: b"any"}[algorithm]
        for number_of_hash, more in ((8, b""), (2, CRITICAL)):
            yield f"a key of {algorithm}, signed as {signed_by}", certified(algorithm, material, made, number_of_hash, signed_by, more), *["undecided algorithm"] * 2
    yield "critical, by SHA-1", certified(1, large.material, made, 2, 0, CRITICAL), *["undecided critical"] * 2
    yield "left octets that aren't its own", certified(1, large.material, made, 2, 0, CRITICAL, 1), "bad", "bad"
    yield "left octets of a key that doesn't fit", certified(200, b"any", made, 8, 1, b"", 1), "bad", "bad"
    yield "a modulus of 16,385 bits", certified(1, two_integers(spread("n", 16_385) | 1, 65_537), made), *["undecided key"] * 2
    yield "an exponent past its modulus", certified(1, two_integers(large.n, large.n + 2), made), *["undecided key"] * 2
    yield "an exponent of 65 bits", certified(1, two_integers(spread("n", 3_073) | 1, (1 << 64) + 1), made), *["undecided key"] * 2
    for n, e in ((0, 0), (1, 1), (0, 65_537), (large.n, 0), (15, 3)):
        yield f"a modulus of {n.bit_length()} bits, an exponent {e}", certified(1, two_integers(n, e), made), None, None


def by_pairs_here():
    """DSA and ECDSA (5.2.3.2): sizes of keys, curves, points that there aren't, and integers that no signature has."""
    for bits, bits_of_q, usual in ((2048, 224, "good"), (2047, 224, "undecided small-key"), (2048, 160, "undecided small-key")):
        key = Dsa(bits, bits_of_q)
        for number_of_hash in (8, 10):
            made = lambda it: two_integers(*key.sign(it))
            yield f"DSA of {bits} and {bits_of_q} by {number_of_hash}", certified(17, key.material, made, number_of_hash), usual, "good"
        yield "with octets 0 in front", certified(17, key.material, lambda it: b"".join(integer(n, 2) for n in key.sign(it))), usual, "good"
        yield "by SHA-1", certified(17, key.material, lambda it: two_integers(*key.sign(it)), 2), "undecided weak-hash", "good"
        for r, s in ((0, 1), (1, 0), (key.q, 1), (1, key.q), (1, 1), (key.q - 1, key.q - 1)):
            yield f"r and s of {r.bit_length()} and {s.bit_length()} bits", certified(17, key.material, lambda it: two_integers(r, s)), None, "bad"
        yield "r and s in turn", certified(17, key.material, lambda it: two_integers(*key.sign(it)[::-1])), None, "bad"
    for fields in ((0, key.q, key.g, key.y), (key.p, 0, key.g, key.y), (key.p, key.q >> 1, key.g, key.y), (0, 0, 0, 0)):
        yield "parts of a DSA key that is none", certified(17, b"".join(map(integer, fields)), lambda it: two_integers(1, 1)), None, None
    for name in CURVES:
        key = Curve(name)
        made = lambda it: two_integers(*key.sign(it))
        for number_of_hash in (8, 9, 10, 11):
            yield f"ECDSA over {name} by {number_of_hash}", certified(19, key.material(key.point), made, number_of_hash), "good", "good"
        yield "by SHA-1", certified(19, key.material(key.point), made, 2), "undecided weak-hash", "good"
        for r, s in ((0, 1), (1, 0), (key.order, 1), (1, key.order), (1, 1)):
            yield f"r and s of {r.bit_length()} and {s.bit_length()} bits", certified(19, key.material(key.point), lambda it: two_integers(r, s)), "bad", "bad"
        yield "r and s in turn", certified(19, key.material(key.point), lambda it: two_integers(*key.sign(it)[::-1])), "bad", "bad"
        for what, point in (
            ("an octet fewer", key.point[:-1]), ("an octet more", key.point + b"\0"), ("another form", b"\5" + key.point[1:]),
            ("off the curve", key.point[:-1] + bytes([key.point[-1] ^ 1])), ("no point", b"\4"), ("of another curve", b"\x40" + key.point[1:33]),
        ):  # fmt: skip
            yield f"{name}: {what}", certified(19, key.material(point), made), *["undecided key"] * 2
        for identifier in (key.identifier + b"\1", key.identifier[:-1], bytes.fromhex("2B8104000A"), bytes.fromhex("2B06010401DA470F01")):
            yield f"the curve {identifier.hex()}", certified(19, key.material(key.point, identifier), made), *["undecided curve"] * 2


def by_points_here():
    """EdDSALegacy, Ed25519 and Ed448 (5.2.3.3 to 5.2.3.5) with keys and signatures that there aren't; and algorithms that nobody verifies."""
    ed25519, point = bytes.fromhex("092B06010401DA470F01"), bytes.fromhex("3F098994BDD916ED4053197934E4A87C80733A1280D62F8010992E43EE3B2406")
    whole = lambda it: integer(int.from_bytes(it, "big"))
    made = lambda it: two_integers(1, 1)
    for what, material, of, wanted in (
        ("a point", ed25519 + whole(b"\x40" + point), made, "bad"), ("another form", ed25519 + whole(b"\x41" + point), made, "undecided key"),
        ("an octet fewer", ed25519 + whole(b"\x40" + point[:-1]), made, "undecided key"), ("an octet more", ed25519 + whole(b"\x40" + point + b"\0"), made, "undecided key"),
        ("no form", ed25519 + whole(point), made, "undecided key"), ("no point", ed25519 + b"\0\0", made, "undecided key"),
        ("another curve", b"\5\x2b\x81\4\0\x22" + whole(b"\x40" + point), made, "undecided curve"),
        ("a curve that is longer", b"\x0a" + ed25519[1:] + b"\1" + whole(b"\x40" + point), made, "undecided curve"),
        ("r of 257 bits", ed25519 + whole(b"\x40" + point), lambda it: two_integers(1 << 256, 1), "bad"),
        ("s of 257 bits", ed25519 + whole(b"\x40" + point), lambda it: two_integers(1, 1 << 256), "bad"),
        ("no r and s", ed25519 + whole(b"\x40" + point), lambda it: two_integers(0, 0), "bad"),
    ):  # fmt: skip
        yield f"EdDSALegacy: {what}", certified(22, material, of), wanted, wanted
        yield f"EdDSALegacy by SHA-1: {what}", certified(22, material, of, 2), "undecided weak-hash", wanted
    for algorithm, size in ((27, 32), (28, 57)):
        key = (point * 2)[:size]
        yield f"algorithm {algorithm}", certified(algorithm, key, lambda it, size=size: bytes(2 * size)), None, None
        yield f"algorithm {algorithm}, ones", certified(algorithm, key, lambda it, size=size: b"\xff" * (2 * size)), "bad", "bad"
        yield f"algorithm {algorithm} by SHA-1", certified(algorithm, key, lambda it, size=size: b"\xff" * (2 * size), 2), "undecided weak-hash", "bad"
    for algorithm, material in ((16, two_integers(7, 7) + integer(7)), (18, ed25519 + whole(b"\x40" + point) + b"\3\1\x08\7"), (25, point), (26, (point * 2)[:56]),
                                (2, two_integers(7, 7)), (200, b"any"), (0, b"any"), (255, b"any")):  # fmt: skip
        for number_of_hash, more, usual, anyway in (
            (8, b"", "unknown", "unknown"), (2, b"", "weak-hash", "unknown"), (8, CRITICAL, "critical", "critical"), (2, CRITICAL, "critical", "critical"),
        ):  # fmt: skip
            octets = certified(algorithm, material, lambda it: b"any", number_of_hash, 0, more)
            yield f"algorithm {algorithm}", octets, f"undecided {usual}", f"undecided {anyway}"


def signed_as(algorithm, material, made):
    """A certificate of this key, whose signature is these octets."""
    return certified(algorithm, material, lambda _: made)


def nasty_keys():
    """A key of each algorithm and a signature by it, with each of their integers 0, 1, even, of all ones and huge in turn, and points
    that are none: what, and the octets."""
    nasty = [0, 1, 2, 4, (1 << 255) - 1, (1 << 256) - 1, 1 << 2047, (1 << 2048) - 1, 1 << 16_000]
    usual = {1: [spread("nasty", 2048) | 1, 65537], 17: [spread("p", 2048) | 1, spread("q", 256) | 1, 4, 16]}
    for algorithm, numbers in usual.items():
        signs = 1 if algorithm == 1 else 2
        for at in range(len(numbers) + signs):
            for number in nasty:
                key, made = [*numbers], [5] * signs
                if at < len(key):
                    key[at] = number
                else:
                    made[at - len(key)] = number
                yield f"algorithm {algorithm}, number {at} of {number.bit_length()} bits", signed_as(
                    algorithm, b"".join(map(integer, key)), b"".join(map(integer, made)))
    for curve, point_size in (("2A8648CE3D030107", 65), ("2B81040022", 97), ("2B240303020801010D", 129)):
        name = bytes([len(curve) // 2]) + bytes.fromhex(curve)
        points = [b"", b"\0", b"\4" + bytes(point_size - 1), b"\4" + b"\xff" * (point_size - 1), b"\2" + bytes(point_size // 2), b"\4" * (point_size + 1)]
        for point in points:
            for r in (0, 1, (1 << 256) - 1, 1 << 16_000):
                yield f"a point of {len(point)} octets on {curve}, r {r.bit_length()}", signed_as(
                    19, name + octets_as_integer(point), integer(r) + integer(1))
    for algorithm, size, name in ((27, 32, b""), (28, 57, b""), (22, 33, b"\x09\x2b\6\1\4\1\xda\x47\x0f\1")):
        for fill in (0, 1, 0x40, 0xFF):
            point = bytes([fill]) * size
            made = bytes([fill]) * 2 * size if algorithm != 22 else integer(int.from_bytes(point[1:], "big")) + integer(1)
            yield f"algorithm {algorithm} of {fill}", signed_as(algorithm, point if algorithm != 22 else name + octets_as_integer(point), made)


def octets_as_integer(octets):
    """Octets as the integer of a point, whose count of bits is that of the first octet on."""
    bits = int.from_bytes(octets, "big").bit_length()
    return bits.to_bytes(2, "big") + octets[len(octets) - (bits + 7) // 8 :]


def nasty_verified(program, env, room):
    """Keys and signatures of numbers that are none are undecided or bad, never good and never the end of the program."""
    count = 0
    for what, octets in nasty_keys():
        ended = run(program, "--policy", "any", input=octets, env=env)
        found = verdicts_of(lines_of(ended.stdout))
        is_small_order = what.startswith(("algorithm 27 of 0", "algorithm 27 of 1", "algorithm 28 of 0", "algorithm 28 of 1")) and found == ["good"]  # libcrypto takes them
        verdict(f"{what}", ended.returncode in (0, 1) and len(found) == 1 and (found != ["good"] or is_small_order), (found, ended.stderr))
        count += 1
    verdict("nasty keys", count > 150, count)
    if shutil.which("valgrind"):
        with open(f"{room}/many.gpg", "wb") as it:
            for source in MADE:
                with open(source, "rb") as one:
                    it.write(one.read())
            it.writelines(octets for what, octets in nasty_keys() if " 0 bits" in what)
        ended = opens("valgrind", "-q", "--error-exitcode=9", "--leak-check=full", "--errors-for-leak-kinds=definite", program, "--policy", "any",
                      source=f"{room}/many.gpg", env=env)
        verdict("opgp-verify by valgrind", ended.returncode in (0, 1), ended.stderr.decode())
    else:
        left_out("valgrind")


def made_here_verified(program, env):
    """Each of these is found to be what the standards say of it, under each policy; where nothing is wanted, it isn't good."""
    for rows in (by_rsa_here, by_pairs_here, by_points_here):
        for what, octets, *wanted in rows():
            for policy, verdict_of_it in zip(("usual", "any"), wanted):
                ended = run(program, "--policy", policy, input=octets, env=env)
                found = verdicts_of(lines_of(ended.stdout))
                holds = found == [verdict_of_it] if verdict_of_it else len(found) == 1 and found != ["good"]
                verdict(f"{what}, with {policy}", holds and ended.returncode == int(found == ["bad"]) and ended.stderr == counts_of(lines_of(ended.stdout)), (verdict_of_it, ended))


def loosened_verified(program, env):
    """Integers behind octets 0 (3.2), which version 4 may have, are those integers: nothing of what is hashed changes."""
    for source in MADE:
        if "ed448" in source:
            continue
        with open(f"{HERE}/tests/vectors/algorithms/verdicts.txt", encoding="ascii") as it:
            wanted = next(re.split(r" *\| *", line.strip())[2] for line in it if line.startswith(os.path.basename(source)[:-4] + " "))
        octets = b""
        for kind, body in packets_in(source):
            if kind == 2:
                it = model.Signature(body)
                body = body[: -len(it.material)] + b"".join(integer(int.from_bytes(n, "big"), 1) for n in model.made_by(it))
            octets += bytes([0xC0 | kind, 255]) + len(body).to_bytes(4, "big") + body
        found = verdicts_of(lines_of(run(program, "--policy", "any", input=octets, env=env).stdout))
        verdict(f"integers of {name_of(source)} behind octets 0", found == wanted.split(" ; "), found)


def archive_verified(program, env):
    small = [it for it in ARCHIVE if os.path.getsize(it) <= MOST]
    if not small:
        left_out("keyrings of Debian's archive in /usr/share/keyrings")
    for source in small:
        found = rows_verified(program, env, source, "any")
        verdict(f"verdicts of {source}", "good" in found and "bad" not in found and all(
            it in ("good", "bad", "undecided absent") or not it.startswith("undecided") for it in found), found)
        counts = {it: found.count(it) for it in sorted(set(found))}
        print(f"tests/bindings/capi.py: {source}: {counts}", file=sys.stderr)


def beside_gpg(program, env, room):
    """The signatures of packets that gpg finds good are those that opgp-verify finds good."""
    if not shutil.which("gpg"):
        left_out("gpg")
        return
    os.mkdir(f"{room}/home", 0o700)
    for source in [*MADE, *(it for it in VECTORS if "/real/" in it and it.endswith(".gpg"))]:
        if "ed448" in source:  # of version 6, which gpg doesn't read
            continue
        words = ["gpg", "--homedir", f"{room}/home", "--batch", "--quiet", "--no-default-keyring", "--no-auto-check-trustdb",
                 "--trust-model", "always", "--allow-weak-digest-algos", "--allow-weak-key-signatures"]
        asked = run(*words, "--keyring", source, "--with-colons", "--check-sigs")
        theirs = re.findall(r"^(?:sig|rev):(.):", asked.stdout.decode(errors="replace"), re.M)
        rows = lines_of(opens(program, "--policy", "any", source=source, env=env).stdout)
        ours = [it for it in rows if " nested - " in it]
        good = sum(it.endswith(" good") for it in ours), sum(it.endswith((" good", " curve")) for it in ours)
        verdict(f"signatures of {name_of(source)} by gpg", asked.returncode == 0 and good[0] <= theirs.count("!") <= good[1],
                (theirs, ours, asked.stderr))


def large_verified(program, env, room):
    """Input of more than 16 MiB, behind which a key is whose signature is looked at."""
    with open(f"{HERE}/tests/vectors/algorithms/rsa_2048.gpg", "rb") as it:
        small = it.read()
    with open(f"{room}/large.gpg", "wb") as it:
        for size in (1 << 20, 9 << 20, 9 << 20):
            it.write(b"\xfc\xff" + size.to_bytes(4, "big") + bytes(size))
        it.write(small)
    told = [opens(program, source=it, env=env) for it in (f"{room}/large.gpg", f"{HERE}/tests/vectors/algorithms/rsa_2048.gpg")]
    verdict("opgp-verify of a large keyring", told[0].returncode == 0 and told[0].stdout == told[1].stdout != b"", told[0])


def wanting_verified(program, env, room, words_given=()):
    """Where an allocation fails, the program says that memory ran out, and writes no line; or all is as ever."""
    made = run("cc", "-O1", "-shared", "-fPIC", "-o", f"{room}/refuse.so", f"{HERE}/tests/lib/refuse.c")
    verdict("tests/lib/refuse.c", made.returncode == 0, made.stderr)
    source = f"{HERE}/tests/vectors/algorithms/rsa_2048.gpg"
    usual = opens(program, *words_given, source=source, env=env)

    def refused(number):
        # The count of allocations is written there.
        with tempfile.TemporaryFile() as told:
            os.dup2(told.fileno(), 9)
            ended = opens(program, *words_given, source=source, env={**env, "LD_PRELOAD": f"{room}/refuse.so", "REFUSE": str(number)}, pass_fds=(9,))
            os.close(9)
            told.seek(0)
            return ended, int(told.read() or 0)

    count = refused(0)[1]
    verdict("opgp-verify allocates", count > 100, count)
    for number in sorted({*range(1, 30), *range(30, count, max(1, count // 100)), *range(max(1, count - 30), count + 2)}):
        ended, _ = refused(number)
        fits = (ended.returncode, ended.stdout) in ((3, b""), (usual.returncode, usual.stdout))
        verdict(f"opgp-verify, allocation {number} refused", fits, ended)


def verdicts_written(program, env):
    """A file of verdicts: a line that says on which keyring they are, and how many; and the lines that are written without a policy. Its status
    is 0 also where a signature is bad."""
    statuses = set()
    for source in (*SMALL, *MADE, os.devnull, *(it for it in ARCHIVE if os.path.getsize(it) <= MOST)):
        binary = merged(source)
        bare = run(program, "--policy=none", input=binary, env=env)
        statuses.add(bare.returncode)
        wanted = f"verdicts by arithmetic of keyring sha256 {hashlib.sha256(binary).hexdigest().upper()} rows {len(lines_of(bare.stdout))}\n"
        for given in (["--verdicts"], ["--verdicts", "--jobs", "3", source], ["--malformed=keep", "--verdicts", "-"]):
            ended = opens(program, *given, source=source, env=env)
            fits = (ended.returncode, ended.stdout, ended.stderr) == (0, wanted.encode() + bare.stdout, bare.stderr)
            verdict(f"verdicts on {name_of(source)} by {given}", fits, ended)
        ended = run(program, "--verdicts", input=binary, env=env)
        verdict(f"verdicts on {name_of(source)}, in binary", (ended.returncode, ended.stdout) == (0, wanted.encode() + bare.stdout), ended)
    verdict("verdicts on keyrings with bad signatures, and without", statuses == {0, 1}, statuses)
    others = (("--policy", "usual", " <POLICY>"), ("--policy", "none", " <POLICY>"), ("--signature", "x", " <SIG>"), ("--keyring", "x", " <FILE>"),
              ("--at", "0", " <TIME>"), ("--require", "good", " <WHAT>"), ("--state",), ("--cleartext",))  # fmt: skip
    for option, *value in others:
        said = f"error: the argument '--verdicts' cannot be used with '{option}{''.join(value[1:])}'\n\nUsage: opgp-verify [OPTIONS] [FILE]\n"
        for given in (["--verdicts", option, *value[:1]], [option, *value[:1], "--verdicts"]):
            ended = opens(program, *given, source=SMALL[1], env=env)
            verdict(f"opgp-verify {given}", (ended.returncode, ended.stdout) == (2, b"") and ended.stderr.decode().startswith(said), ended)
    for given, said in ((["--verdicts", "--verdicts"], "the argument '--verdicts' cannot be used multiple times"),
                        (["--verdicts=x"], "unexpected argument '--verdicts=x' found"), (["--verdicts", "a", "b"], "unexpected argument 'b' found")):
        ended = opens(program, *given, source=SMALL[1], env=env)
        verdict(f"opgp-verify {given}", (ended.returncode, ended.stdout) == (2, b"") and said in ended.stderr.decode(), ended)
    for octets in (b"text", b"\xc6\1\3"):
        ended = run(program, "--verdicts", input=octets, env=env)
        verdict(f"verdicts on {octets}", (ended.returncode, ended.stdout, ended.stderr) == (1, b"", run(program, input=octets, env=env).stderr), ended)
    with open("/dev/full", "wb") as full, open(SMALL[1], "rb") as it:
        ended = subprocess.run([program, "--verdicts"], stdin=it, stdout=full, stderr=subprocess.PIPE, env=env, check=False)
    verdict("verdicts to a full device", (ended.returncode, ended.stderr) == (3, b"opgp-verify: write failed\n"), ended)


def states_verified(program, env, room):
    """How the parts of keyrings stand is what `opgp state` says by the verdicts, and of the vectors what the model says."""
    sources = [(it, None) for it in (*SMALL, *(it for it in ARCHIVE if os.path.getsize(it) <= MOST))]
    sources += [(f"{room}/vector.gpg", it) for it in standing_cases.vectors()]
    parts = 0
    for source, vector in sources:
        if vector:
            with open(source, "wb") as it:
                it.write(vector.octets)
            if opens(PROGRAM, "list", source=source).returncode:
                continue  # it has malformed signatures
        name = vector.stem if vector else name_of(source)
        with open(f"{room}/verdicts", "wb") as it:
            it.write(opens(program, "--verdicts", source=source, env=env).stdout)
        for at, policy in (("2026-11-20", "usual"), ("2020-01-01T00:00:00Z", "any"), ("0", "usual"))[: 1 if vector else 3]:
            by = [opens(program, "--state", "--at", at, "--policy", policy, source=source, env=env)]
            by.append(opens(PROGRAM, "state", "--at", at, "--policy", policy, "--verdicts", f"{room}/verdicts", source=source))
            verdict(f"states of {name} at {at}, {policy}", by[0].returncode == by[1].returncode == 0 and by[0].stdout == by[1].stdout, by)
            found = re.findall(rb" : (?:pub|sub) [0-9A-F]+ ([\w-]+)", by[0].stdout)
            counts = ", ".join(f"{found.count(it.encode())} {it}" for it in ("usable", "revoked", "early", "unbound", "expired", "no-use"))
            verdict(f"counts of {name} at {at}", by[0].stderr.decode() == f"opgp-verify: {counts}\n", by[0].stderr)
            if vector:
                keyring = standing.Keyring(*standing_cases.once(vector.octets, vector.verdicts))
                wanted = [state for c in range(len(keyring.certificates)) for state in keyring.state(c, 1795132800)]
                wanted = [state if isinstance(state, str) else state[0] or "usable" for state in wanted]
                told = re.findall(r" : (?:(?:pub|sub) \w+ ([\w-]+)|u(?:id|at) (\w+))", by[0].stdout.decode())
                told = [it or other.replace("certified", "fine") for it, other in told]
                verdict(f"how the parts of {name} stand", told == wanted, (told, wanted))
                parts += len(told)
    verdict("many parts of vectors", parts > 800, parts)
    for given, said in (
        (["--state", "--state"], "the argument '--state' cannot be used multiple times"),
        (["--state", "--require", "good"], "the argument '--state' cannot be used with '--require <WHAT>'"),
        (["--state", "--keyring", SMALL[0]], "the argument '--state' cannot be used with '--signature <SIG>'"),
        (["--at", "0"], "the argument '--at <TIME>' cannot be used without '--signature <SIG>'"),
        (["--state=yes"], "unexpected argument '--state=yes' found"),
        (["--state", "--at", "now"], "invalid value 'now' for '--at <TIME>'"),
        (["--state", "--policy", "none"], "the argument '--policy none' is for the signatures of a keyring alone"),
    ):
        ended = opens(program, *given, source=SMALL[0], env=env)
        verdict(f"opgp-verify {given}", ended.returncode == 2 and ended.stdout == b"" and said in ended.stderr.decode(), ended)
    ended = opens(program, "--state", source=f"{HERE}/README.md", env=env)
    verdict("states of a text", (ended.returncode, ended.stdout) == (1, b""), ended)


def verified(room):
    program = f"{room}/usr/bin/opgp-verify"
    if not os.path.exists(program):
        left_out("opgp-verify, for which libcrypto is wanted")
        return
    env = {**os.environ, "LD_LIBRARY_PATH": f"{room}/usr/lib"}
    words(program, env)
    made_verified(program, env)
    disputed_verified(program, env)
    critical_verified(program, env)
    made_here_verified(program, env)
    loosened_verified(program, env)
    nasty_verified(program, env, room)
    large_verified(program, env, room)
    wanting_verified(program, env, room)
    wanting_verified(program, env, room, ("--state", "--at", "2026-11-20"))
    wanting_verified(program, env, room, ("--verdicts",))
    verdicts_written(program, env)
    archive_verified(program, env)
    states_verified(program, env, room)
    beside_gpg(program, env, room)


def main():
    with tempfile.TemporaryDirectory() as room:
        compiled(room)
        if installed(room):
            symbols(room)
            programs(room)
            in_cpp(room)
            registered()
            manuals(room, f"{room}/usr/bin/opgp-verify")
            program = calls(room)
            tables(program)
            forms(program)
            made(program)
            materials(program)
            faults(program)
            verdict_files(program, room)
            skipped(program, room)
            names(program)
            documents(program)
            verified(room)
            uninstalled(room)
    print(f"{passed} passed, {failed} failed")
    return int(failed > 0)


sys.exit(main())
