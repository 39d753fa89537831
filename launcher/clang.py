"""Stands in for the `clang` of a kit, in a folder of links to it: `clang.py KIT PROGRAM WORD..`.

`rt try` has its compiler's front end make one module of all that the program needs, and has `clang` compile it with checks of each address, without
optimisations. Here that module is divided, its parts are compiled side by side, optimised and without the checks of addresses, and linked. All
other checks stay. The program is put at PROGRAM, and the call fails, so that `rt try` ends. If anything is otherwise than in the kits that this file
knows, the kit's own `clang` gets the same words.
"""

from __future__ import annotations

import os
import subprocess
import sys
from typing import List, Optional

from module_parts import part_texts, read_module

LEAST = 100_000  # bytes of a module that is the program's; before it, `rt try` has a small one compiled, to see what it can check
UNWANTED = ("-Werror", "-O0", "-fsanitize=address", "-c")
WANTED = ("-O1", "-Wno-override-module")
TARGET = "x86_64-unknown-linux-gnu"


class Failed(Exception):
    """A part of the work failed, so the kit's own `clang` has to do it all."""


def module_in(words: List[str]) -> Optional[str]:
    """The path of the program's module, if this call compiles it."""
    found = [it for it in words if it.endswith(".bc")]
    is_it = len(found) == 1 and "-fsanitize=address" in words and os.path.getsize(found[0]) >= LEAST
    return found[0] if is_it else None


def flags_in(words: List[str]) -> List[str]:
    """The words of a call that hold for the parts too: all but its input, its output and how it optimises and checks."""
    kept: List[str] = []
    left = iter(words)
    for word in left:
        if word in ("-o", "-x"):
            next(left, None)
        elif word not in UNWANTED and not word.endswith(".bc"):
            kept.append(word)
    return [*kept, *WANTED]


def text_of(clang: str, module: str) -> str:
    """The text of a module. (Its bytes are kept as they are.)"""
    words = [clang, f"--target={TARGET}", "--no-default-config", "-O0", "-Xclang", "-disable-llvm-passes", "-S", "-emit-llvm"]
    ran = subprocess.run([*words, "-x", "ir", module, "-o", "-"], stdout=subprocess.PIPE, check=True)
    return ran.stdout.decode("latin-1")


def compile_parts(clang: str, words: List[str], module: str) -> List[str]:
    """Compiles the parts of a module side by side, one on each processor, and returns the files that come of them."""
    flags, made = flags_in(words), []
    running: List[subprocess.Popen[bytes]] = []
    try:
        for at, text in enumerate(part_texts(read_module(text_of(clang, module)), len(os.sched_getaffinity(0)))):
            with open(f"part{at}.ll", "w", encoding="latin-1") as file:
                file.write(text)
            made.append(f"part{at}.o")
            running.append(subprocess.Popen([clang, *flags, "-c", "-x", "ir", file.name, "-o", made[-1]]))
        if any([it.wait() for it in running]):
            raise Failed
    finally:
        for each in running:
            each.kill()
    return made


def link(kit: str, parts: List[str], program: str) -> None:
    words = [f"{kit}/bin/rattle-link", "--target", TARGET, "--toolchain", f"{kit}/toolchain", "-o", f"{program}.new", *parts]
    subprocess.run([*words, f"{kit}/c/libos_c.a", f"{kit}/c/liblibc_c.a"], stdout=subprocess.DEVNULL, check=True)
    os.replace(f"{program}.new", program)


def main(kit: str, program: str, *words: str) -> int:
    clang = f"{kit}/toolchain/bin/clang"
    try:
        module = module_in([*words])
        if module:
            link(kit, compile_parts(clang, [*words], module), program)
            return 1
    except (Failed, OSError, ValueError, LookupError, MemoryError, subprocess.CalledProcessError):
        pass
    os.execv(clang, [clang, *words])


if __name__ == "__main__":
    sys.exit(main(*sys.argv[1:]))
