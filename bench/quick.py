#!/usr/bin/env python3
"""Builds the program without its proofs, to measure a change before it is proved: bench/quick.py OUT [FOLDER]

OUT is the file to write, and FOLDER is the checkout whose program is built; without it, it is this one. It takes two
minutes for the bitcode and three for clang.

`rt try` makes bitcode of the sources as they stand. Here clang makes a program of it that counts within a few in 100 of
the instructions of the program that the gate builds. So what differs between two such programs tells what a change
costs; what one of them counts by itself tells less. Nothing in it is proved and no check is left in it, so a wrong
program may hang: run it under `timeout`.
"""

import os
import re
import shutil
import subprocess
import sys
import tempfile
from pathlib import Path

ROOT = Path(__file__).resolve().parent.parent
TARGET = "x86_64-unknown-linux-gnu"

# What the gate's build leaves out: checks of what is proved, and fills of memory that is not read.
CHECKS = re.compile(r"call .*@\"rattle-llvm-checks|@llvm\.memset\..*i8 -86")

# In place of clang: keeps the program's module, and fails, so that nothing more is made of it.
KEEPER = """#!/bin/sh
for word in "$@"; do
    case $word in
        *.bc)
            if [ "$(stat -c %s "$word" 2>/dev/null || echo 0)" -gt 3000000 ]; then
                cp "$word" "{module}"
                exit 1
            fi
            ;;
    esac
done
exec "{clang}" "$@"
"""


def shadow(kit, into, name, script):
    """The toolchain's folder by links, but with this script in place of a tool of the toolchain."""
    (into / "toolchain" / "bin").mkdir(parents=True)
    for path in kit.iterdir():
        if path.name == "bin":
            shutil.copytree(path, into / "bin")
        elif path.name != "toolchain":
            (into / path.name).symlink_to(path)
    for path in (kit / "toolchain").iterdir():
        if path.name != "bin":
            (into / "toolchain" / path.name).symlink_to(path)
    for path in (kit / "toolchain" / "bin").iterdir():
        if path.name != name:
            (into / "toolchain" / "bin" / path.name).symlink_to(path)
    keeper = into / "toolchain" / "bin" / name
    keeper.write_text(script)
    keeper.chmod(0o755)


def hints(folder):
    """What the sources ask to inline always or never: pairs of a module and a function's name, with the attribute."""
    found = {}
    for path in sorted(folder.glob("crates/*/src/**/*.rt")):
        parts = path.relative_to(folder / "crates").with_suffix("").parts
        module = [parts[0]] + [it for it in parts[2:] if it not in ("lib", "main")]
        hint = None
        for line in path.read_text().splitlines():
            words = line.strip()
            if words.startswith("#[inline(always)]"):
                hint = "alwaysinline"
            elif words.startswith("#[inline(never)]"):
                hint = "noinline"
            elif named := re.match(r"(?:pub(?:\(\w+\))? )?(?:const )?fn (\w+)", words):
                if hint:
                    found["::".join(module), named[1]] = hint
                hint = None
    return found


def hint_of(line, asked):
    """The attribute that the sources ask for the function that a line defines."""
    if named := re.search(r'@"?((?:ioa_\w+|ioarun)(?:::[^"<(]*?)?)(?:::<[^"]*)?"?\(', line):
        *parts, name = named[1].split("::")
        for last in range(1, len(parts) + 1):
            if hint := asked.get(("::".join(parts[:last]), name)):
                return hint
    return None


def lighter(lines, asked):
    """The lines of a module with the hints of the sources, and without checks, frame pointers and the zeros with which
    a function's head fills memory."""
    head = False
    for line in lines:
        if CHECKS.search(line):
            continue
        if line.startswith("define "):
            head = True
            if hint := hint_of(line, asked):
                line = re.sub(r" (#\d+ \{|\{)\s*$", lambda it: f" {hint} {it[1]}\n", line, count=1)
        elif re.match(r"\s+br ", line):
            head = False
        elif head and "llvm.memset" in line and ", i8 0, i64" in line:
            continue
        elif line.startswith("attributes "):
            line = line.replace('"frame-pointer"="all"', '"frame-pointer"="none"')
        yield line


def build(out, folder):
    """Builds the program of a checkout."""
    kit = Path(shutil.which("rt")).resolve().parent.parent
    clang = kit / "toolchain" / "bin" / "clang"
    with tempfile.TemporaryDirectory() as place:
        place = Path(place)
        module, text, light, made = (place / it for it in ("module.bc", "module.ll", "light.ll", "module.o"))
        shadow(kit, place / "kit", "clang", KEEPER.format(module=module, clang=clang))
        tried = subprocess.run(
            [place / "kit" / "bin" / "rt", "try", "--", "--help"],
            cwd=folder / "crates" / "ioarun", capture_output=True, text=True,
        )
        if not module.exists():
            sys.exit(f"rt try made no module:\n{tried.stdout}{tried.stderr}")
        plain = [clang, f"--target={TARGET}", "--no-default-config", "-fintegrated-cc1", "-x", "ir"]
        subprocess.run([*plain, "-S", "-emit-llvm", "-Xclang", "-disable-llvm-passes", module, "-o", text],
                       check=True, stderr=subprocess.DEVNULL)
        with text.open() as lines, light.open("w") as kept:
            kept.writelines(lighter(lines, hints(folder)))
        subprocess.run([*plain, "-O3", "-march=x86-64", "-ffunction-sections", "-fdata-sections", "-fPIE", "-c",
                        f"--sysroot={kit / 'toolchain'}", light, "-o", made], check=True, stderr=subprocess.DEVNULL)
        subprocess.run([kit / "bin" / "rattle-link", "--target", TARGET, "--toolchain", kit / "toolchain",
                        "-o", os.path.abspath(out), made, kit / "c" / "libos_c.a", kit / "c" / "liblibc_c.a"],
                       check=True, stdout=subprocess.DEVNULL)


def main():
    if len(sys.argv) not in (2, 3):
        sys.exit(__doc__)
    build(sys.argv[1], Path(sys.argv[2]).resolve() if len(sys.argv) == 3 else ROOT)


if __name__ == "__main__":
    main()
