#!/usr/bin/env python3
"""Builds `ra_serve` for a profile before it is proved: optimised, and without the checks that a proved program lacks.

    bench/before_proof.py OUT [KEPT.bc]

`rt try` compiles the program by LLVM, not optimised and with checks of its own. This runs it with a copy of the kit (links,
but for `rt` and a `clang` that keeps the module), takes the checks and the marks of the sanitizer out of the module's text,
compiles that with -O3, and links it as the kit does. With KEPT.bc, a module that an earlier run left beside its OUT, only
the last steps are done. It takes some minutes. The program counts a fifth to a quarter more instructions than the one
that `rt run` builds, so it is set beside its like alone."""
import os
import re
import shutil
import subprocess
import sys
import tempfile
from pathlib import Path

ROOT = Path(__file__).resolve().parent.parent
TARGET = "x86_64-unknown-linux-gnu"
KEEPER = """#!/bin/bash
for word in "$@"; do case "$word" in *module.bc) cp "$word" {kept};; esac; done
exec -a clang {kit}/toolchain/bin/clang "$@"
"""


def copy_of(kit, folder, kept):
    """Links to all of the kit but for what `rt` finds its place by, and a `clang` that keeps the module."""
    for part in ("", "bin", "toolchain", "toolchain/bin"):
        (folder / part).mkdir(parents=True, exist_ok=True)
        for it in (kit / part).iterdir():
            if not (folder / part / it.name).exists() and it.name not in ("bin", "toolchain", "rt", "rtlib.py", "clang"):
                (folder / part / it.name).symlink_to(it)
    for name in ("rt", "rtlib.py"):
        shutil.copy(kit / "bin" / name, folder / "bin" / name)
    clang = folder / "toolchain/bin/clang"
    clang.write_text(KEEPER.format(kept=kept, kit=kit))
    clang.chmod(0o755)


def without_checks(text):
    """The module's text without calls of the checks, with empty bodies of these, and without what the sanitizer marks."""
    for mark in ("sanitize_address", '"frame-pointer"="all"', " optnone", " noinline"):
        text = text.replace(mark, "")
    text = re.sub(r"(attributes #\d+ = \{)\s*\}", r"\1 nounwind }", text)
    lines, inside = [], False
    for line in text.split("\n"):
        is_check = "rattle-llvm-checks::" in line
        if inside:
            if line.startswith("}"):
                lines.append(line)
                inside = False
        elif is_check and line.startswith("define") and "void @" in line:
            lines += [line, "  ret void"]
            inside = True
        elif not (is_check and "call" in line) and not ("@llvm.memset" in line and "i8 -86" in line):
            lines.append(line)
    return "\n".join(lines)


def main():
    if len(sys.argv) not in (2, 3):
        sys.exit(__doc__)
    out = Path(sys.argv[1]).resolve()
    kit = Path(os.path.realpath(shutil.which("rt") or sys.exit("there is no command rt on the path"))).parent.parent
    clang = [kit / "toolchain/bin/clang", f"--target={TARGET}", "--no-default-config", "-Wno-override-module", "-x", "ir"]
    module = Path(sys.argv[2]) if len(sys.argv) == 3 else out.with_suffix(".bc")
    if len(sys.argv) == 2:
        with tempfile.TemporaryDirectory() as room:
            copy_of(kit, Path(room), module)
            words = [f"{room}/bin/rt", "try", "--", "--version"]
            subprocess.run(words, cwd=ROOT / "crates/ra_serve", check=True)
    text = out.with_suffix(".ll")
    subprocess.run([*clang, "-S", "-emit-llvm", "-O0", module, "-o", text], check=True)
    text.write_text(without_checks(text.read_text()))
    sections = ["-ffunction-sections", "-fdata-sections", "-mllvm", "-no-trap-after-noreturn"]
    subprocess.run([*clang, "-c", "-O3", "-fPIE", *sections, text, "-o", out.with_suffix(".o")], check=True)
    words = [kit / "bin/rattle-link", "--target", TARGET, "--toolchain", kit / "toolchain", "-o", out, out.with_suffix(".o")]
    subprocess.run([*words, kit / "c/libos_c.a", kit / "c/liblibc_c.a"], check=True)
    text.unlink()


if __name__ == "__main__":
    main()
