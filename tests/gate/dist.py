#!/usr/bin/env python3
"""Tries `make install`, `make uninstall`, `make dist`, `make deb`, the wheel and `opgp --version`: each file's place and mode, and
that nothing is left; that the tarball and the packages are the same octet for octet when they are made again in a copy of the folder
elsewhere, over the program and the proved library that are built here; that what is unpacked has its sums, runs, links and is found
by pkg-config and CMake; that lintian has no complaint; and what is refused. What isn't here is said on standard error. The last line
counts what was tried."""

import os
import re
import shutil
import stat
import subprocess
import sys
import tarfile
import tempfile

sys.dont_write_bytecode = True
sys.path.insert(0, f"{sys.path[0]}/../lib")

from running import HERE, built  # noqa: E402

PROGRAM = built("tests/gate/dist.py")
KEY = f"{HERE}/examples/rfc9580-a1.asc"
# Where `make install` puts what, below PREFIX: its mode, or where the link leads.
PLACES = {
    "bin/opgp": 0o755, "bin/opgp-verify": 0o755, "lib/opgp/opgp": 0o755, "lib/opgp/VERSION": 0o644,
    "include/opgp.h": 0o644, "include/opgp.hpp": 0o644, "lib/libopgp.a": 0o644, "lib/libopgp.so.3": 0o755,
    "lib/libopgp.so": "libopgp.so.3", "lib/pkgconfig/opgp.pc": 0o644, "lib/cmake/opgp/opgpConfig.cmake": 0o644,
    "lib/cmake/opgp/opgpConfigVersion.cmake": 0o644, "share/man/man1/opgp.1": 0o644, "share/man/man1/opgp-verify.1": 0o644,
    "share/man/man3/libopgp.3": 0o644, "share/bash-completion/completions/opgp": 0o644, "share/zsh/site-functions/_opgp": 0o644,
    "share/fish/vendor_completions.d/opgp.fish": 0o644,
}
# Other names of opgp-verify, each with a manual.
NAMES = ("opgp-sopv", "opgp-sqv", "opgp-gpgv")
PLACES |= {f"bin/{it}": "opgp-verify" for it in NAMES} | {f"share/man/man1/{it}.1": 0o644 for it in NAMES}
# What stands there as it stands here.
COPIES = {
    "bin/opgp": "build/installed", "lib/opgp/opgp": "crates/opgp_tool/out/opgp_tool", "include/opgp.h": "c/opgp.h",
    "include/opgp.hpp": "c/opgp.hpp", "share/man/man1/opgp.1": "man/opgp.1", "share/man/man1/opgp-verify.1": "man/opgp-verify.1",
    "share/man/man3/libopgp.3": "man/libopgp.3", "share/bash-completion/completions/opgp": "completions/opgp.bash",
    "share/zsh/site-functions/_opgp": "completions/opgp.zsh", "share/fish/vendor_completions.d/opgp.fish": "completions/opgp.fish",
}
COPIES |= {f"share/man/man1/{it}.1": f"man/{it}.1" for it in NAMES}
# What a tarball has besides, as it stands here.
MODULES = sorted(it for it in os.listdir(f"{HERE}/python/wheel") if it.endswith((".py", ".typed")))  # beside opgp.py in the package
MORE = ["CHANGELOG.md", "README.md", "SECURITY.md", "python/opgp.py", *(f"python/wheel/{it}" for it in MODULES),
        *sorted(f"docs/{it}" for it in os.listdir(f"{HERE}/docs") if it.endswith((".md", ".svg"))), *(f"docs/images/{it}" for it in sorted(os.listdir(f"{HERE}/docs/images")))]
TOLD = ("SOURCE_DATE_EPOCH", "MAKEFLAGS", "MAKELEVEL", "DESTDIR", "PREFIX")
passed = failed = 0


def verdict(what, holds, said=""):
    global passed, failed
    passed, failed = passed + bool(holds), failed + (not holds)
    if not holds:
        print(f"tests/gate/dist.py: {what}: FAILED {said}"[:2000], file=sys.stderr)


def left_out(what):
    print(f"tests/gate/dist.py: left out, since it isn't here: {what}", file=sys.stderr)


def run(*words, source=os.devnull, **how):
    """The end of a command, in an environment that says nothing to make of what is to be made."""
    told = how.pop("env", {})
    kept = {name: it for name, it in os.environ.items() if name not in TOLD}
    with open(source, "rb") as it:
        return subprocess.run(words, stdin=it, capture_output=True, text=True, check=False, timeout=600, env={**kept, **told}, **how)


def make(*words, tree=HERE, umask=0o022, **env):
    return run("make", "-C", tree, *words, env=env, umask=umask)


def git(*words, tree=HERE):
    return run("git", "-C", tree, *words).stdout.strip()


def octets_of(path):
    with open(path, "rb") as it:
        return it.read()


def text_of(path):
    return octets_of(path).decode()


def below(top):
    """What is below a folder: the mode of each file, or where it leads if it is a link."""
    paths = [f"{at}/{name}" for at, folders, files in os.walk(top) for name in (*files, *folders)]
    return {os.path.relpath(it, top): os.readlink(it) if os.path.islink(it) else stat.S_IMODE(os.stat(it).st_mode)
            for it in paths if os.path.islink(it) or not os.path.isdir(it)}


def places():
    """Where all is put here: opgp-verify is left out without libcrypto's headers."""
    if run("cc", "-E", "-include", "openssl/core_names.h", "-x", "c", os.devnull).returncode:
        left_out("libcrypto's headers")
        return {name: it for name, it in PLACES.items() if not any(other in name for other in ("opgp-verify", *NAMES))}
    return PLACES


def copy(room):
    """A copy of this folder in another one, with its repository and what is built here."""
    tree = f"{room}/a copy, elsewhere"
    run("git", "clone", "-q", "--shared", "--no-checkout", HERE, tree)
    for path in git("ls-files", "--cached", "--others", "--exclude-standard").split("\n"):
        if os.path.lexists(f"{HERE}/{path}"):
            os.makedirs(os.path.dirname(f"{tree}/{path}"), exist_ok=True)
            shutil.copy2(f"{HERE}/{path}", f"{tree}/{path}", follow_symlinks=False)
    git("reset", "-q", git("rev-parse", "HEAD"), tree=tree)
    for path in ("crates/opgp_tool/out/opgp_tool", "crates/opgp_c/out/libopgp_c.a"):
        os.makedirs(os.path.dirname(f"{tree}/{path}"))
        shutil.copy(f"{HERE}/{path}", f"{tree}/{path}")  # newer than any source
    return tree


# ---- The version


def versions(room, tree):
    """The line that the launcher prints, which this returns."""
    number = re.search(r'^#define OPGP_VERSION "(.*)"$', text_of(f"{HERE}/c/opgp.h"), re.M)[1]
    kit = run("rt", "version").stdout.strip()
    changed = "-changed" * (run("git", "-C", HERE, "diff", "--quiet", "HEAD").returncode != 0)
    line = f"opgp {number} (commit {git('rev-parse', '--short=12', 'HEAD')}{changed}, {kit})\n"
    for word in ("--version", "-V"):
        said = run(f"{HERE}/opgp", word)
        verdict(f"opgp {word}", (said.returncode, said.stdout, said.stderr) == (0, line, ""), said)
    os.symlink(f"{HERE}/opgp", f"{room}/link")
    verdict("the version through a link", run(f"{room}/link", "-V", cwd=room).stdout == line)
    logic = re.search(rb"rattle logic=([0-9a-f]{16})", octets_of(PROGRAM))
    verdict("the logic is the program's own", logic and f" logic {logic[1].decode()})" in line, (logic, line))
    verdict("the page on building names this logic", logic and re.search(rf"^    rattle-kit-\S+ logic {logic[1].decode()}$",
                                                                         text_of(f"{HERE}/docs/BUILDING.md"), re.M))
    with open("/dev/full", "wb") as full:
        ended = subprocess.run([f"{HERE}/opgp", "-V"], stdout=full, stderr=subprocess.PIPE, text=True, check=False)
    verdict("the version written to a full device", (ended.returncode, ended.stderr) == (3, "opgp: write failed\n"), ended)
    # In a folder that is in a repository, and isn't one, where nothing is built and no kit is found.
    plain = f"{tree}/crates/opgp_tool/out/plain"
    for path in ("opgp", "build/version", "c/opgp.h"):
        os.makedirs(os.path.dirname(f"{plain}/{path}"), exist_ok=True)
        shutil.copy(f"{HERE}/{path}", f"{plain}/{path}")
    os.mkdir(f"{room}/bare")
    for it in ("bash", "dirname", "git", "grep", "readlink", "sed"):
        os.symlink(shutil.which(it), f"{room}/bare/{it}")
    said = run(f"{plain}/opgp", "-V", env={"PATH": f"{room}/bare"})
    verdict("a version of which little is known", (said.returncode, said.stdout, said.stderr)
            == (0, f"opgp {number} (commit unknown, logic unknown)\n", ""), said)
    shutil.rmtree(plain)
    return number, line


# ---- Installing


def answers_its_version(top, room, line):
    """What is installed answers --version by its file, and gives all other words to the program."""
    link = f"{room}/installed"
    os.symlink(f"{top}/bin/opgp", link)
    for program, cwd in ((f"{top}/bin/opgp", room), ("./opgp", f"{top}/bin"), (link, room), ("bin/opgp", top)):
        for word in ("--version", "-V"):
            said = run(program, word, cwd=cwd)
            verdict(f"{program} {word}", (said.returncode, said.stdout, said.stderr) == (0, line, ""), said)
        listed = run(program, "list", cwd=cwd, source=KEY)
        verdict(f"{program} list", listed.stdout == text_of(f"{HERE}/tests/cases/list/armored_key_of_the_standard/stdout"), listed)
        refused, alone = run(program, "list", "", "a  b", cwd=cwd), run(PROGRAM, "list", "", "a  b")
        verdict(f"{program} with other words", refused.returncode == 2 and refused.stderr == alone.stderr, refused)
    os.unlink(link)
    said = run("sh", "opgp", "-V", cwd=f"{top}/bin")
    verdict("the installed program by sh", (said.returncode, said.stdout) == (0, line), said)
    alone = run(f"{top}/lib/opgp/opgp", "--version")
    verdict("the proved program alone refuses --version", (alone.returncode, alone.stdout) == (2, "")
            and "unexpected argument '--version' found" in alone.stderr, alone)
    with open("/dev/full", "wb") as full:
        ended = subprocess.run([f"{top}/bin/opgp", "-V"], stdout=full, stderr=subprocess.PIPE, text=True, check=False)
    verdict("the installed version to a full device", (ended.returncode, ended.stderr) == (3, "opgp: write failed\n"), ended)
    os.rename(f"{top}/lib/opgp/VERSION", f"{top}/VERSION")
    said = run(f"{top}/bin/opgp", "-V")
    verdict("an installed program without its version", (said.returncode, said.stdout, said.stderr) == (3, "", "opgp: read failed\n"), said)
    os.rename(f"{top}/VERSION", f"{top}/lib/opgp/VERSION")


def installs(room, wanted, line):
    for prefix, umask in (("/usr", 0o022), ("/opt/open pgp", 0o077)):
        top, words = f"{room}/a place{prefix}", (f"DESTDIR={room}/a place", f"PREFIX={prefix}")
        made = make("install", *words, umask=umask)
        found = below(top)
        verdict(f"make install below {prefix}", made.returncode == 0 and found == wanted, (made.stderr, found))
        folders = [f"{at}/{it}" for at, names, _ in os.walk(top) for it in names]
        closed = [it for it in folders if stat.S_IMODE(os.stat(it).st_mode) != 0o755]
        verdict(f"its folders below {prefix} are open", folders and not closed, closed)
        other = [it for it, mine in COPIES.items() if octets_of(f"{top}/{it}") != octets_of(f"{HERE}/{mine}")]
        verdict(f"what is copied below {prefix}", not other, other)
        verdict(f"the version below {prefix}", text_of(f"{top}/lib/opgp/VERSION") == line)
        answers_its_version(top, room, line)
        verdict(f"the prefix {prefix}", text_of(f"{top}/lib/pkgconfig/opgp.pc").startswith(f"prefix={prefix}\n"))
        # A file of another stays, and its folder.
        others = ["lib/opgp/other", "lib/other"] if prefix == "/usr" else []
        for it in others:
            with open(f"{top}/{it}", "w", encoding="ascii"):
                pass
        gone = make("uninstall", *words)
        left = below(top)
        verdict(f"make uninstall below {prefix}", gone.returncode == 0 and sorted(left) == sorted(others), (gone.stderr, left))
        for it, stays in (("lib/opgp", bool(others)), ("lib/cmake/opgp", False)):
            verdict(f"its own folder {it} below {prefix}", os.path.isdir(f"{top}/{it}") == stays)
        again = make("uninstall", *words)
        verdict(f"make uninstall twice below {prefix}", again.returncode == 0, again.stderr)


# ---- The tarball


def dists(room, tree, number):
    """Two tarballs of the same, the second one made elsewhere with other settings; this returns the first."""
    time = git("log", "-1", "--format=%ct")
    is_clean = not git("status", "--porcelain")
    if not is_clean:
        left_out("a tree without changes: the time of its commit is given")
    one = make("dist", f"made={room}/one", **({} if is_clean else {"SOURCE_DATE_EPOCH": time}))
    other = {"SOURCE_DATE_EPOCH": time, "TZ": "Asia/Tokyo", "LC_ALL": "C.UTF-8", "HOME": room}
    two = make("dist", f"made={room}/another", tree=tree, umask=0o077, **other)
    name = f"opgp-{number}.tar.gz"
    for what, made, place in (("make dist", one, "one"), ("make dist elsewhere", two, "another")):
        found = os.listdir(f"{room}/{place}") if os.path.isdir(f"{room}/{place}") else []
        verdict(f"{what} makes one file", made.returncode == 0 and found == [name], (found, made.stderr))
        verdict(f"{what} ends with its sum", re.search(rf"^[0-9a-f]{{64}}  {re.escape(name)}$", made.stdout, re.M), made.stdout[-300:])
    if one.returncode or two.returncode:
        return None, time
    octets = octets_of(f"{room}/one/{name}")
    verdict("the same octets elsewhere", octets == octets_of(f"{room}/another/{name}"))
    verdict("no name and no time is in the header of gzip", octets[3:8] == bytes(5), octets[:10])
    return f"{room}/one/{name}", time


def unpacked(room, tarball, number, time, wanted):
    """What is in a tarball, and its folder once it is unpacked."""
    with tarfile.open(tarball) as it:
        members = it.getmembers()
    names = [it.name for it in members]
    is_below = all(f"{it}/".startswith(f"opgp-{number}/") for it in names)
    verdict("the names are sorted, below one folder", names == sorted(names, key=lambda it: it.split("/")) and is_below, names)
    owned = {(it.uid, it.gid, it.uname, it.gname, it.mtime) for it in members}
    verdict("owner and times", owned == {(0, 0, "", "", int(time))}, owned)
    verdict("the folders' modes", all(it.mode == 0o755 for it in members if it.isdir()))
    done = run("tar", "-xzf", tarball, "-C", room)
    top = f"{room}/opgp-{number}"
    every = {**wanted, **dict.fromkeys(["SHA256SUMS", *MORE], 0o644)}
    verdict("what is unpacked", done.returncode == 0 and below(top) == every, below(top))
    other = [it for it, mine in (*COPIES.items(), *zip(MORE, MORE)) if octets_of(f"{top}/{it}") != octets_of(f"{HERE}/{mine}")]
    verdict("what is copied into it", not other, other)
    summed = [line[66:] for line in text_of(f"{top}/SHA256SUMS").splitlines()]
    files = sorted(it for it, mode in every.items() if it != "SHA256SUMS" and not isinstance(mode, str))
    verdict("what has a sum", summed == files, summed)
    done = run("sha256sum", "--check", "--strict", "--quiet", "SHA256SUMS", cwd=top)
    verdict("the sums", done.returncode == 0, done.stdout + done.stderr)
    named = [it for it in wanted if it not in COPIES or it == "lib/opgp/opgp" if f"{HERE}/".encode() in octets_of(f"{top}/{it}")]
    verdict("no file that was built names this folder", not named, named)
    return top


def works(room, top, number, line):
    """What was unpacked: the program, a user's program by each library, the module for Python, and opgp-verify."""
    listed = run(f"{top}/bin/opgp", "list", source=KEY)
    verdict("the program", listed.stdout == text_of(f"{HERE}/tests/cases/list/armored_key_of_the_standard/stdout"), listed)
    said = run(f"{top}/bin/opgp", "--version")
    verdict("its version", (said.returncode, said.stdout) == (0, line), said)
    version = text_of(f"{top}/lib/opgp/VERSION")
    verdict("its file of the version, its compiler and linker", re.fullmatch(rf"{re.escape(line)}C: .+, -O2\nC: .+\n", version), version)
    kinds = [("static", [f"-I{top}/include", f"{top}/lib/libopgp.a"])]
    if shutil.which("pkg-config"):
        asked = run("pkg-config", "--cflags", "--libs", "opgp", env={"PKG_CONFIG_LIBDIR": f"{top}/lib/pkgconfig"})
        verdict("pkg-config", asked.returncode == 0, asked.stderr)
        kinds.append(("shared", asked.stdout.split()))
    else:
        left_out("pkg-config")
    for kind, words in kinds:
        made = run("cc", f"{HERE}/c/examples/keys.c", *words, "-o", f"{room}/keys.{kind}")
        ended = run(f"{room}/keys.{kind}", source=KEY, env={"LD_LIBRARY_PATH": f"{top}/lib"}) if not made.returncode else made
        verdict(f"a program with the {kind} library", (ended.returncode, ended.stdout) == (0, listed.stdout), ended)
    by_cmake(room, "the tarball", top, number, listed.stdout)
    by_python("the module for Python", f"{top}/python", f"{top}/lib/libopgp.so.3", listed.stdout)
    if os.path.exists(f"{top}/bin/opgp-verify"):
        ended = run(f"{top}/bin/opgp-verify", "--version")
        verdict("opgp-verify", ended.returncode == 0 and ended.stdout.startswith(f"opgp-verify {number}"), ended)
        for name, word in zip(NAMES, ("version", "--version", "--version")):
            ended = run(f"{top}/bin/{name}", word)
            verdict(name, ended.returncode == 0 and ended.stdout.startswith(f"{name} {number}"), ended)


CMAKE = """cmake_minimum_required(VERSION 3.13)
project(keys C)
foreach(version ${VERSIONS})
    unset(opgp_DIR CACHE)
    find_package(opgp ${version} QUIET)
    message("version ${version}: ${opgp_FOUND}")
endforeach()
unset(opgp_DIR CACHE)
find_package(opgp REQUIRED)
foreach(kind opgp static)
    add_executable(keys_${kind} "${SOURCE}")
    target_link_libraries(keys_${kind} PRIVATE opgp::${kind})
endforeach()
"""


def by_cmake(room, what, prefix, number, wanted):
    """A user's program with each library, as CMake finds them below a folder; and which versions are found there."""
    if not shutil.which("cmake"):
        left_out("cmake")
        return
    place = tempfile.mkdtemp(prefix="cmake ", dir=room)
    with open(f"{place}/CMakeLists.txt", "w", encoding="ascii") as it:
        it.write(CMAKE)
    first, second = map(int, number.split(".")[:2])
    fit = {number: True, f"{first}.{second + 1}": False, f"{first + 1}.0": False, f"{first + 1}.{second}": False}
    made = run("cmake", "-S", place, "-B", f"{place}/made", f"-DSOURCE={HERE}/c/examples/keys.c", f"-DVERSIONS={';'.join(fit)}",
               f"-DCMAKE_PREFIX_PATH={prefix}")
    found = {it: holds == "1" for it, holds in re.findall(r"^version (\S+): (\d)$", made.stderr, re.M)}
    verdict(f"CMake, {what}", made.returncode == 0 and found == fit, (made.stderr, found))
    made = run("cmake", "--build", f"{place}/made")
    for kind in ("opgp", "static"):
        ended = run(f"{place}/made/keys_{kind}", source=KEY) if not made.returncode else made
        verdict(f"a program with opgp::{kind}, {what}", (ended.returncode, ended.stdout) == (0, wanted), ended)


def by_python(what, place, library, wanted):
    """A user's program with the module for Python that is in a folder, and the module's own commands."""
    env = {"PYTHONPATH": place, "OPGP_LIBRARY": library, "PYTHONDONTWRITEBYTECODE": "1"}
    ended = run(sys.executable, f"{HERE}/python/examples/keys.py", source=KEY, env=env)
    verdict(what, (ended.returncode, ended.stdout) == (0, wanted), ended)
    ended = run(sys.executable, "-m", "opgp", "hkp", "--unverified", source=KEY, env=env)
    verdict(f"the commands of {what}", ended.returncode == 0 and ended.stdout.startswith("info:1:1\npub:"), ended)


# ---- The packages of Debian


def packages(room, tree, number, line, time, wanted):
    """The packages, made here and elsewhere; what lintian says of them, and what is unpacked of them."""
    lacking = [it for it in ("dpkg-deb", "dpkg-query", "nm", "objdump", "strip") if not shutil.which(it)]
    if lacking or "bin/opgp-verify" not in wanted:
        left_out(f"{', '.join(lacking) or 'what opgp-verify needs'}: no packages are made")
        return
    is_clean = not git("status", "--porcelain")
    one = make("deb", f"made={room}/debs", **({} if is_clean else {"SOURCE_DATE_EPOCH": time}))
    other = {"SOURCE_DATE_EPOCH": time, "TZ": "Asia/Tokyo", "LC_ALL": "C.UTF-8", "HOME": room}
    two = make("deb", f"made={room}/debs.elsewhere", tree=tree, umask=0o077, **other)
    version = f"{number}-1~upstream1"
    names = {f"{it}_{version}_amd64.deb" for it in ("opgp", "libopgp3", "libopgp-dev")} | {f"python3-opgp_{version}_all.deb"}
    for what, made, place in (("make deb", one, "debs"), ("make deb elsewhere", two, "debs.elsewhere")):
        found = set(os.listdir(f"{room}/{place}")) if os.path.isdir(f"{room}/{place}") else set()
        verdict(f"{what} makes the packages", made.returncode == 0 and found == names, (found, made.stderr))
    if one.returncode or two.returncode:
        return
    differ = [it for it in sorted(names) if octets_of(f"{room}/debs/{it}") != octets_of(f"{room}/debs.elsewhere/{it}")]
    verdict("the same packages elsewhere", not differ, differ)
    files = [f"{room}/debs/{it}" for it in sorted(names)]
    if shutil.which("lintian"):
        said = run("lintian", "--allow-root", "--fail-on", "error,warning", *files, env={"LC_ALL": "C.UTF-8"})
        verdict("lintian", said.returncode == 0 and not re.search("^[EW]:", said.stdout, re.M), said.stdout + said.stderr)
    else:
        left_out("lintian")
    unpacked_packages(room, files, number, line, version)


def unpacked_packages(room, files, number, line, version):
    """What is in the packages, once they are unpacked in one folder."""
    root, lib = f"{room}/system", f"{room}/system/usr/lib/x86_64-linux-gnu"
    os.mkdir(root)
    needs = {"opgp": ("libc6", "libssl3"), "libopgp3": ("libc6",), "libopgp-dev": (f"libopgp3 (= {version})",),
             "python3-opgp": (f"libopgp3 (>= {number})", "python3:any")}
    for file in files:
        name = os.path.basename(file).split("_")[0]
        done = run("dpkg-deb", "--extract", file, root)
        control = run("dpkg-deb", "--control", file, f"{room}/control.{name}")
        verdict(f"{name} is unpacked", done.returncode == control.returncode == 0, done.stderr + control.stderr)
        done = run("md5sum", "--check", "--strict", "--quiet", f"{room}/control.{name}/md5sums", cwd=root)
        verdict(f"the sums of {name}", done.returncode == 0, done.stdout + done.stderr)
        told = run("dpkg-deb", "--field", file, "Depends").stdout
        verdict(f"what {name} depends on", [it for it in needs[name] if it not in told] == [], told)
    header = re.sub(r"/\*.*?\*/|^typedef [^{};]*;", "", text_of(f"{HERE}/c/opgp.h"), flags=re.S | re.M)
    calls = set(re.findall(r"\b(opgp_\w+)\(", header))
    named = re.findall(rf"^ (opgp_\w+)@OPGP_0 {re.escape(number)}$", text_of(f"{room}/control.libopgp3/symbols"), re.M)
    verdict("the symbols of libopgp3", calls and set(named) == calls, set(named) ^ calls)
    listed = text_of(f"{HERE}/tests/cases/list/armored_key_of_the_standard/stdout")
    for words, wanted in ((["list"], listed), (["--version"], line)):
        said = run(f"{root}/usr/bin/opgp", *words, source=KEY)
        verdict(f"the packaged opgp {words[0]}", (said.returncode, said.stdout) == (0, wanted), said)
    logic = re.compile(rb"rattle logic=[0-9a-f]+")
    kept = logic.findall(octets_of(f"{root}/usr/lib/opgp/opgp"))
    verdict("the packaged program says its logic", kept and kept == logic.findall(octets_of(PROGRAM)), kept)
    said = run(f"{root}/usr/bin/opgp-verify", "--version")
    verdict("the packaged opgp-verify", said.returncode == 0 and said.stdout.startswith(f"opgp-verify {number}"), said)
    for name, word in zip(NAMES, ("version", "--version", "--version")):
        said = run(f"{root}/usr/bin/{name}", word)
        verdict(f"the packaged {name}", said.returncode == 0 and said.stdout.startswith(f"{name} {number}"), said)
    if shutil.which("pkg-config"):
        asked = run("pkg-config", "--cflags", "--libs", "opgp",
                    env={"PKG_CONFIG_LIBDIR": f"{lib}/pkgconfig", "PKG_CONFIG_SYSROOT_DIR": root})
        made = run("cc", f"{HERE}/c/examples/keys.c", *asked.stdout.split(), "-o", f"{room}/keys.packaged")
        ended = run(f"{room}/keys.packaged", source=KEY, env={"LD_LIBRARY_PATH": lib}) if not made.returncode else made
        verdict("a program with libopgp-dev", (ended.returncode, ended.stdout) == (0, listed), ended)
    by_cmake(room, "libopgp-dev", f"{root}/usr", number, listed)
    by_python("the module of python3-opgp", f"{root}/usr/lib/python3/dist-packages", f"{lib}/libopgp.so.3", listed)


# ---- The wheel


TYPED = """import opgp
def first(octets: bytes) -> bytes:
    with opgp.read(octets) as keyring:
        return keyring.certificates()[0].primary.fingerprint
"""


def wheel(room, tree, number):
    """The wheel, made in the copy of the folder; a user's program with it, and its types."""
    wants = "import setuptools, wheel, pip, venv; assert int(setuptools.__version__.split('.')[0]) >= 61"
    python = [it for it in (sys.executable, "/usr/bin/python3") if os.access(it, os.X_OK) and run(it, "-c", wants).returncode == 0]
    if not python:
        left_out("a Python with pip, setuptools and wheel")
        return
    words = ("wheel", "--no-build-isolation", "--no-deps", "--no-index", "--no-cache-dir", "-w", f"{room}/wheel", f"{tree}/python")
    made = run(python[0], "-m", "pip", *words)
    file = f"{room}/wheel/opgp-{number}-py3-none-any.whl"
    verdict("the wheel is made", made.returncode == 0 and os.path.isfile(file), made)
    verdict("what pip leaves is ignored", "python/build" not in git("status", "--porcelain", tree=tree))
    if not os.path.isfile(file):
        return
    run(python[0], "-m", "venv", "--without-pip", f"{room}/venv")
    inside = f"{room}/venv/bin/python3"
    site = run(inside, "-c", "import sysconfig; print(sysconfig.get_path('purelib'))").stdout.strip()
    run(python[0], "-m", "zipfile", "-e", file, site)
    have = sorted(it for it in below(site) if ".dist-info/" not in it)
    verdict("what is in it", have == sorted(f"opgp/{it}" for it in ("__init__.py", *MODULES)), have)
    verdict("its module is python/opgp.py", octets_of(f"{site}/opgp/__init__.py") == octets_of(f"{HERE}/python/opgp.py"))
    run("make", "-C", tree, "library", f"made={room}/library")
    listed = text_of(f"{HERE}/tests/cases/list/armored_key_of_the_standard/stdout")
    by_python("the module of the wheel", site, f"{room}/library/libopgp.so.3", listed)
    mypy = shutil.which("mypy")
    if not mypy:
        left_out("mypy")
        return
    for what, source, status in (("right", TYPED, 0), ("wrong", TYPED.replace("fingerprint", "version"), 1)):
        with open(f"{room}/{what}.py", "w", encoding="ascii") as it:
            it.write(source)
        said = run(mypy, "--strict", f"--cache-dir={os.devnull}", "--python-executable", inside, f"{room}/{what}.py", cwd=room)
        verdict(f"mypy of a {what} program", said.returncode == status and 'incompatible type' not in said.stdout
                and ("Incompatible return value" in said.stdout) == bool(status), said)


def debugged(room, tree, wanted):
    """What is in C, with what debuggers read, is the same elsewhere too."""
    made = [make("library", f"made={room}/{name}", "CFLAGS=-O2 -g", tree=it) for name, it in (("here", HERE), ("there", tree))]
    verdict("make library with -g", not any(it.returncode for it in made), [it.stderr for it in made])
    for it in ("libopgp.a", "libopgp.so.3", *["opgp-verify"] * ("bin/opgp-verify" in wanted)):
        files = [f"{room}/{name}/{it}" for name in ("here", "there")]
        verdict(f"{it} with -g elsewhere", all(map(os.path.exists, files)) and octets_of(files[0]) == octets_of(files[1]))


def refusals(room, tree, number):
    """What no tarball is made of without a time, and what is made of it with one."""

    def refused(what, why, **env):
        for task in ("dist", "deb"):
            made = make(task, f"made={room}/no", tree=tree, **env)
            left = os.listdir(f"{room}/no") if os.path.isdir(f"{room}/no") else []
            verdict(f"no {task} of {what}", made.returncode != 0 and f"make {task}: {why}" in made.stderr and not left, (made.stderr, left))

    timed = "SOURCE_DATE_EPOCH to the time of the files, in seconds from 1970\n"
    with open(f"{tree}/README.md", "a", encoding="utf-8") as it:
        it.write("\n")
    refused("a changed tree", f"files here aren't those of the commit: commit or remove them, or set {timed}")
    refused("a time in words", "SOURCE_DATE_EPOCH is no number of seconds\n", SOURCE_DATE_EPOCH="now")
    made = make("dist", f"made={room}/timed", tree=tree, SOURCE_DATE_EPOCH="1000000000")
    verdict("a changed tree with a time", made.returncode == 0, made.stderr)
    if made.returncode == 0:
        with tarfile.open(f"{room}/timed/opgp-{number}.tar.gz") as it:
            version = it.extractfile(f"opgp-{number}/lib/opgp/VERSION").read().decode()
            verdict("its times", {it.mtime for it in it.getmembers()} == {1000000000})
        verdict("its version says that it is changed", re.match(r"opgp \S+ \(commit [0-9a-f]{12}-changed, ", version), version)
    shutil.rmtree(f"{tree}/.git")
    refused("a tree without a repository", f"no commit is found here: take a clone, or set {timed}")


def main():
    if git("rev-parse", "--show-toplevel") != HERE or not git("rev-parse", "--verify", "HEAD"):
        left_out("a repository of Git whose top is this folder, and a commit")
        print("0 passed, 0 failed")
        return 0
    with tempfile.TemporaryDirectory() as room:
        made = make("library")
        verdict("make library", made.returncode == 0, made.stderr)
        wanted, tree = places(), copy(room)
        number, line = versions(room, tree)
        installs(room, wanted, line)
        tarball, time = dists(room, tree, number)
        if tarball:
            works(room, unpacked(room, tarball, number, time, wanted), number, line)
        packages(room, tree, number, line, time, wanted)
        wheel(room, tree, number)
        debugged(room, tree, wanted)
        refusals(room, tree, number)
    print(f"{passed} passed, {failed} failed")
    return int(failed != 0)


sys.exit(main())
