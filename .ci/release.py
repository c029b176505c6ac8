"""The program as the gate proved and built it, in the folder release/: `optplan.gz`, and `release.txt`, which says what it was built from.

`release.txt` has a line each for the toolchain (`kit`, as `rt version` prints it), the system and the processor, the least version of
the C library, the sum over the sources (`source_sum`), the sum of the unpacked program, and each crate that the program uses. The
file `built` beside a program in `out/` has the same lines, and one more: `by gate`, `by build` or `by release`.
"""

import gzip
import hashlib
import os
import re
import subprocess

from repository import Repository, toolchain

SYSTEM = "Linux x86_64"
NAMES = ("release.txt", "optplan.gz")
VERSION_OF_LIBRARY = re.compile(rb"GLIBC_(\d+)\.(\d+)")


def contents(path):
    with open(path, "rb") as file:
        return file.read()


def field(text, name):
    """The value of the first line with this name in the text of a `release.txt`, or None."""
    found = re.search(rf"^{name} (.*)$", text, re.MULTILINE)
    return found and found[1]


def source_sum(top, crates):
    script = os.path.join(os.path.dirname(os.path.abspath(__file__)), "source_sum")
    return subprocess.run([script, top, *crates], check=True, stdout=subprocess.PIPE, text=True).stdout.strip()


def description(top, program, kit=None):
    """The text of `release.txt` for the program's bytes, built from the sources of the tree `top` by this toolchain or the one at hand."""
    crates = Repository(top).closure(["optplan"])
    least = max((int(it[0]), int(it[1])) for it in VERSION_OF_LIBRARY.findall(program) or [(2, 0)])
    lines = [
        f"kit {kit or toolchain()}",
        f"system {SYSTEM}",
        f"glibc {least[0]}.{least[1]}",
        f"sources {source_sum(top, crates)}",
        f"program {hashlib.sha256(program).hexdigest()}",
        *(f"crate {it}" for it in crates),
    ]
    return "".join(f"{it}\n" for it in lines)


def write(top, program, text):
    """Writes release/ for the program's bytes. The packed file stays as it is if it holds these bytes already."""
    description_file, packed = (os.path.join(top, "release", it) for it in NAMES)
    os.makedirs(os.path.dirname(packed), exist_ok=True)
    if unpacked(packed) != program:
        with open(packed, "wb") as file:
            file.write(gzip.compress(program, 9, mtime=0))
    with open(description_file, "w", encoding="utf-8") as file:
        file.write(text)


def unpacked(packed):
    """The bytes that a packed file holds, or None if it is missing or damaged."""
    try:
        return gzip.decompress(contents(packed))
    except (OSError, EOFError, gzip.zlib.error):
        return None


def difference(top, program, kit=None):
    """Compares release/ of the tree `top` with the program's bytes, built from its sources by this toolchain or the one at hand. Returns
    False only if release/ is for these sources and this toolchain and is not this program, and what to say."""
    path = os.path.join(top, "release", NAMES[0])
    if not os.path.isfile(path):
        return True, "release/ is missing, so the program is not compared"
    released, built = contents(path).decode(errors="replace"), description(top, program, kit)
    for name, what in (("kit", "by another toolchain"), ("sources", "from other sources")):
        if field(released, name) != field(built, name):
            return True, f"release/ was built {what}, so the program is not compared"
    if released != built or unpacked(os.path.join(top, "release", NAMES[1])) != program:
        return False, "release/ is NOT the program that was built from these sources"
    return True, "release/ is the program that was built, byte for byte"
