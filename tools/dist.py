#!/usr/bin/env python3
"""Makes release/cti-VERSION-x86_64-linux.tar.xz with its SHA-256, from bin/cti and what `make install` installs.

usage: tools/dist.py [--program FILE --to FOLDER]    makes the release; with a program that is not bin/cti for a trial
       tools/dist.py --check [--jobs N]              builds the release anew from the commit that it names, and says in
                                                     which files it differs from the one in release/

The same text, program and kit give the same bytes: names in order, one owner, the time of the commit, and `xz -9` by
one thread. The program is stripped of its table of symbols, by the kit's own tool. share/doc/cti/RELEASE says from
which commit and kit it was made.
"""
import argparse
import hashlib
import io
import lzma
import os
import re
import shutil
import subprocess
import sys
import tarfile
import tempfile
from pathlib import Path

top = Path(__file__).resolve().parent.parent
NOTE = "share/doc/cti/RELEASE"
TARGET = "x86_64-linux"
# Where the version stands beside the program itself.
PLACES = [("README.md", r"This is version (\S+)\. "), ("man/cti.1", r'"cti (\S+)"'), ("man/cti-file.1", r'"cti (\S+)"'),
          ("swi/pack.pl", r"version\('(\S+)'\)"), ("swi/cti_report.pl", r"report_version\('(\S+)'\)"),
          ("CHANGELOG.md", r"(?m)^## (\d\S*)$")]


def said(*words, **how):
    """What a command prints."""
    return subprocess.run(words, check=True, text=True, stdout=subprocess.PIPE, **how).stdout.strip()


def version_of(program):
    """The version that the program says, which all texts have to say too."""
    # It answers on standard error, with status 2.
    ran = subprocess.run([program, "--version"], stdout=subprocess.DEVNULL, stderr=subprocess.PIPE, text=True)
    match = re.match(r"cti (\d+(?:\.\d+)*): ", ran.stderr)
    if not match:
        sys.exit(f"dist.py: {program} does not say a version, or says that it is not proved: {ran.stderr.strip()}")
    for file, pattern in PLACES:
        found = re.search(pattern, (top / file).read_text())
        if not found or found[1] != match[1]:
            sys.exit(f"dist.py: the program says version {match[1]}, and {file} {found and found[1]}")
    return match[1]


def strip(program):
    """Removes the table of symbols. The sections that say how the program was made stay."""
    clang = Path(said("rt", "doc")).parent / "toolchain" / "bin" / "clang"
    subprocess.run(["llvm-strip", "--strip-all-gnu", program], executable=clang, check=True)


def newest_glibc(program):
    """The version of the C library that has all that a program calls of it."""
    return ".".join(map(str, max(tuple(map(int, it.split(b"."))) for it in re.findall(rb"GLIBC_(\d+\.\d+)", program))))


PROVED = """Every function of bin/cti was proved before it was built from that commit by that kit. `make check-release`,
in a clone and with the kit, builds it anew and compares. share/cti/swi/, the converter that bin/cti-file runs, is not
proved; it needs SWI-Prolog.
"""
TRIAL = """This is a trial, with another program than the proved one in the place of bin/cti.
"""


def fill(stage, tree, program, commit, version, what):
    """Installs a tree's files with a program into a folder, and writes from what they were made."""
    install = ["make", "-s", "-C", tree, "install-files", f"PROGRAM={program}", f"DESTDIR={stage}", "PREFIX="]
    subprocess.run(install, check=True)
    strip(stage / "bin" / "cti")
    text = (stage / "bin" / "cti").read_bytes()
    note = f"""cti {version} for x86-64 Linux with glibc {newest_glibc(text)} or newer

commit       {commit}
kit          {said("rt", "version")}
bin/cti      SHA-256 {hashlib.sha256(text).hexdigest()}

{what}"""
    (stage / NOTE).write_text(note)


def archive(stage, name, seconds):
    """The folder as a tar file that depends on its names, modes and texts alone."""
    made = io.BytesIO()
    with tarfile.open(fileobj=made, mode="w", format=tarfile.USTAR_FORMAT) as tar:
        for path in sorted(path for path in stage.rglob("*") if not path.is_dir()):
            entry = tarfile.TarInfo(f"{name}/{path.relative_to(stage).as_posix()}")
            entry.size, entry.mtime = path.stat().st_size, seconds
            entry.mode = 0o755 if os.access(path, os.X_OK) else 0o644
            entry.uname = entry.gname = "root"
            with path.open("rb") as text:
                tar.addfile(entry, text)
    return made.getvalue()


def made(tree, program, commit, what=PROVED):
    """The name of a release, and its tar file."""
    version = version_of(program)
    name = f"cti-{version}-{TARGET}"
    seconds = int(said("git", "-C", top, "show", "-s", "--format=%ct", commit))
    with tempfile.TemporaryDirectory(prefix="cti-dist-") as folder:
        stage = Path(folder) / name
        fill(stage, tree, program, commit, version, what)
        return name, archive(stage, name, seconds)


def make(program, to):
    commit = said("git", "-C", top, "rev-parse", "HEAD")
    # What lies in release/ is no part of what is released.
    if to == top / "release" and said("git", "-C", top, "status", "--porcelain", "--", ".", ":!release"):
        sys.exit("dist.py: there are changes that are in no commit: commit them first, so that the release can name it")
    if re.search(r"(?m)^## Unreleased", (top / "CHANGELOG.md").read_text()):
        print("dist.py: CHANGELOG.md has changes that belong to no version yet", file=sys.stderr)
    name, tar = made(top, program, commit, PROVED if program == top / "bin" / "cti" else TRIAL)
    to.mkdir(parents=True, exist_ok=True)
    for old in to.glob(f"cti-*-{TARGET}.tar.xz*"):
        old.unlink()
    packed = lzma.compress(tar, preset=9)
    (to / f"{name}.tar.xz").write_bytes(packed)
    digest = hashlib.sha256(packed).hexdigest()
    (to / f"{name}.tar.xz.sha256").write_text(f"{digest}  {name}.tar.xz\n")
    print(f"{to / name}.tar.xz: {len(packed)} bytes, SHA-256 {digest}")


def members(tar):
    """The files of an archive, each with its mode and text."""
    with tarfile.open(fileobj=io.BytesIO(tar)) as it:
        return {entry.name.partition("/")[2]: (entry.mode, it.extractfile(entry).read()) for entry in it.getmembers()}


def differing(released, built):
    """The names of the files that only one of two archives has, or each with another mode or text."""
    return sorted(name for name in {*released, *built} if released.get(name) != built.get(name))


def check(jobs):
    packed = sorted((top / "release").glob(f"cti-*-{TARGET}.tar.xz"))
    if len(packed) != 1:
        sys.exit("dist.py: release/ has no release, or more than one")
    subprocess.run(["sha256sum", "-c", f"{packed[0].name}.sha256"], cwd=top / "release", check=True)
    released = members(lzma.decompress(packed[0].read_bytes()))
    # The note is by the dist.py of its time. What it says of the program is looked at here.
    note = released.pop(NOTE)[1].decode()
    if hashlib.sha256(released["bin/cti"][1]).hexdigest() not in note:
        sys.exit(f"dist.py: {NOTE} names another SHA-256 than that of bin/cti")
    words = {name: re.search(rf"(?m)^{name} +(\S.*)$", note)[1] for name in ("commit", "kit")}
    if said("rt", "version") != words["kit"]:
        sys.exit(f"dist.py: the release was made by {words['kit']}, and this kit is {said('rt', 'version')}")
    with tempfile.TemporaryDirectory(prefix="cti-release-") as folder:
        tree = Path(folder) / "text"
        subprocess.run(["git", "clone", "-q", "--no-checkout", top, tree], check=True)
        subprocess.run(["git", "-C", tree, "checkout", "-q", words["commit"]], check=True)
        subprocess.run([tree / "tools" / "build.py", "--jobs", str(jobs)], check=True)
        built = members(made(tree, tree / "crates" / "cti" / "out" / "cti", words["commit"])[1])
        del built[NOTE]
    differ = differing(released, built)
    for name in differ:
        print(f"{name} differs")
    print(f"{len(released)} files of {packed[0].name}, {len(differ)} differ from those built from {words['commit']}")
    return 1 if differ else 0


def main():
    words = argparse.ArgumentParser(usage=__doc__.split("\n\n")[1].removeprefix("usage: "))
    words.add_argument("--program", type=Path, default=top / "bin" / "cti")
    words.add_argument("--to", type=Path, default=top / "release")
    words.add_argument("--check", action="store_true")
    words.add_argument("--jobs", type=int, default=len(os.sched_getaffinity(0)))
    asked = words.parse_args()
    if asked.check:
        return check(asked.jobs)
    program, to = asked.program.resolve(), asked.to.resolve()
    if program != top / "bin" / "cti" and to == top / "release":
        sys.exit("dist.py: release/ is for bin/cti alone: name another folder by --to")
    return make(program, to)


if __name__ == "__main__":
    sys.exit(main())
