#!/usr/bin/env python3
"""The programs as the gate built them, in release/, for those who have no toolchain.

usage: release.py make      puts crates/rollback_program/out and crates/rollback_graph/out into release/, stripped and compressed
       release.py check     fails if release/ isn't what it says, or if the programs that were just built of the same crates are others
       release.py unpack FOLDER

release/manifest.json has the version, the commit, the kit, the oldest C library that they need, and of each program the SHA-256 of what the
gate built and of what is there. `make` wants a clean checkout of crates, `strip` of the binutils, and the programs that `rt ci` or `rt run`
left. The last line of `check` is `N passed, M failed`.
"""
import hashlib
import json
import lzma
import os
import platform
import re
import subprocess
import sys
import tempfile

TOP = os.path.join(os.path.dirname(os.path.abspath(__file__)), "..")
RELEASE = os.path.join(TOP, "release")
MANIFEST = os.path.join(RELEASE, "manifest.json")
# each program's name, and the file that the gate leaves
PROGRAMS = {"rollback": "crates/rollback_program/out/rollback_program", "rollback_graph": "crates/rollback_graph/out/rollback_graph"}
# what the programs are made of
SOURCES = ["crates.txt", ":(glob)crates/*/src/**"]


def output(*words):
    return subprocess.run(words, cwd=TOP, stdout=subprocess.PIPE, text=True, check=True).stdout.strip()


def digest(data):
    return hashlib.sha256(data).hexdigest()


def read(path):
    with open(path, "rb") as it:
        return it.read()


def stripped(path):
    """A program without its table of names."""
    with tempfile.TemporaryDirectory() as room:
        to = os.path.join(room, "program")
        subprocess.run(["strip", "--strip-all", "-o", to, path], check=True)
        return read(to)


def oldest_library(data):
    """The newest version of the C library whose names a program asks for."""
    found = {tuple(map(int, it.split(b"."))) for it in re.findall(rb"GLIBC_(\d+(?:\.\d+)+)", data)}
    return ".".join(map(str, max(found)))


def make():
    if output("git", "status", "--porcelain", "--", *SOURCES):
        sys.exit("release: the crates have changes that no commit has")
    os.makedirs(RELEASE, exist_ok=True)
    found = {
        "commit": output("git", "rev-parse", "HEAD"),
        "kit": output("rt", "version"),
        "platform": "x86-64 Linux",
        "programs": {},
    }
    for name, built in PROGRAMS.items():
        path = os.path.join(TOP, built)
        data = stripped(path)
        file = f"{name}.xz"
        with open(os.path.join(RELEASE, file), "wb") as out:
            out.write(lzma.compress(data, preset=9 | lzma.PRESET_EXTREME))
        found["version"] = output(path, "--version").split()[-1]
        found["c_library"] = oldest_library(data)
        found["programs"][name] = {"file": file, "built_sha256": digest(read(path)), "sha256": digest(data)}
    with open(MANIFEST, "w", encoding="utf-8") as out:
        json.dump(found, out, indent=2, sort_keys=True)
        out.write("\n")
    print(f"release: version {found['version']}, glibc {found['c_library']} or newer")


def manifest():
    with open(MANIFEST, encoding="utf-8") as text:
        return json.load(text)


def unpacked(said, name):
    """A program of the release, whose sum was compared."""
    data = lzma.decompress(read(os.path.join(RELEASE, said["programs"][name]["file"])))
    if digest(data) != said["programs"][name]["sha256"]:
        raise ValueError(f"release/{said['programs'][name]['file']} isn't what the manifest says")
    return data


def write_program(path, data):
    with open(path, "wb") as out:
        out.write(data)
    os.chmod(path, 0o755)


def unpack(folder):
    said = manifest()
    os.makedirs(folder, exist_ok=True)
    for name in PROGRAMS:
        path = os.path.join(folder, name)
        write_program(f"{path}.new", unpacked(said, name))
        os.replace(f"{path}.new", path)


def commits_behind(commit):
    """How many commits changed the programs' sources since the release; None, if git doesn't know its commit."""
    known = subprocess.run(["git", "cat-file", "-e", commit], cwd=TOP, stderr=subprocess.DEVNULL).returncode == 0
    if not known:
        return None
    if not output("git", "diff", "--name-only", commit, "--", *SOURCES):
        return 0
    return int(output("git", "rev-list", "--count", f"{commit}..HEAD", "--", *SOURCES))


def fault_of(said, name, behind):
    """What is wrong with a program of the release, if anything is."""
    try:
        data = unpacked(said, name)
    except (OSError, ValueError, lzma.LZMAError) as fault:
        return str(fault)
    built = os.path.join(TOP, PROGRAMS[name])
    if behind == 0 and os.path.isfile(built) and digest(read(built)) != said["programs"][name]["built_sha256"]:
        return f"{PROGRAMS[name]} is made of the same crates, and isn't the program of the release"
    if behind and os.path.isfile(built):
        same = digest(read(built)) == said["programs"][name]["built_sha256"]
        print(f"release: what was built of {name} now is {'the same, byte for byte' if same else 'another program'}")
    if platform.machine() != "x86_64":
        return None
    with tempfile.TemporaryDirectory() as room:
        path = os.path.join(room, name)
        write_program(path, data)
        ran = subprocess.run([path, "--version"], stdout=subprocess.PIPE, text=True)
    wanted = f"{name} {said['version']}"
    return None if ran.stdout.strip() == wanted else f"{name} --version answers {ran.stdout.strip()!r}, and not {wanted!r}"


def check():
    if not os.path.isfile(MANIFEST):
        print("release: there is none\n1 passed, 0 failed")
        return 0
    said = manifest()
    behind = commits_behind(said["commit"])
    print("release: git doesn't know its commit" if behind is None else f"release: {behind} commits of the programs' sources behind" if behind else "release: of these crates")
    faults = [it for it in (fault_of(said, name, behind) for name in PROGRAMS) if it]
    for it in faults:
        print(f"release: {it}")
    print(f"{len(PROGRAMS) - len(faults)} passed, {len(faults)} failed")
    return int(bool(faults))


def main():
    words = sys.argv[1:]
    if words == ["make"]:
        make()
    elif words == ["check"]:
        sys.exit(check())
    elif len(words) == 2 and words[0] == "unpack":
        unpack(words[1])
    else:
        sys.exit("usage: release.py make | check | unpack FOLDER")


if __name__ == "__main__":
    main()
