#!/usr/bin/env python3
"""Compiles the program without proofs, with checks at run time in their place, and prints the path of what it made.

    tools/unproved.py

The kit's `rt try` compiles a program in about a minute, runs it once and keeps nothing. This is the same command, called by way of a folder
of links to the kit in which clang is a script: it hands on to the kit's own, and keeps the object file, which is then linked with the kit's
linker. So what is kept has the checks of `rt try`: it ends with a signal where an index is out of bounds or a sum overflows, for example. Two
things differ: the code is optimized, and memory isn't watched by a sanitizer. With it, and without optimization, a page of 250 blocks in one
another takes 18 seconds of a processor, and a tenth of a second so. What is kept stands in out/unproved/, which git ignores, under a sum of
all its sources and of the kit, so that it is made anew exactly when one of them has changed. Of two calls at once the second waits.
bin/replay runs it if no proved program is built; bin/test always does.

Exit status: 0, or 70 if the program can't be compiled, or 6 for wrong arguments.
"""
import contextlib
import fcntl
import hashlib
import os
import pathlib
import shutil
import subprocess
import sys
import tempfile

TOP = pathlib.Path(__file__).resolve().parent.parent
KEPT = TOP / "out" / "unproved"
# What the kit's command line consists of. These are copied, since they find the kit by the folder that they are in.
COMMANDS = ("rt", "rtlib.py")
LIBRARIES = ("libos_c.a", "liblibc_c.a")
# In place of the kit's clang. The program is the last thing that `rt try` compiles.
KEEPER = """#!/bin/sh
for word; do
  shift
  case "$word" in
    -fsanitize=address) ;;
    -O0) set -- "$@" {level} ;;
    *) set -- "$@" "$word" ;;
  esac
done
"{real}" "$@" || exit
for word; do
  if [ "$last" = -o ]; then cp "$word" "{kept}"; fi
  last="$word"
done
"""


class Refused(Exception):
    """The program can't be compiled."""


def kit():
    """The kit's folder."""
    found = shutil.which("rt")
    if not found:
        raise Refused("rt, the command of the Rattle kit, isn't on the PATH; it is needed to compile the program")
    return pathlib.Path(found).resolve().parent.parent


def rows():
    """The crates of crates.txt, each with the names behind its own."""
    found = {}
    for line in (TOP / "crates.txt").read_text().splitlines():
        name, colon, below = line.partition("#")[0].partition(":")
        if colon and name.split():
            found[name.split()[0]] = below.split()
    return found


def with_those_below(name):
    """A crate and all those of this repository that it depends on."""
    table, found, waiting = rows(), set(), [name]
    while waiting:
        each = waiting.pop()
        if each in table and each not in found:
            found.add(each)
            waiting += table[each]
    return sorted(found)


def sum_of(name):
    """A sum of all that a crate is compiled from if nothing is proved: its sources, those of the crates below it, the kit, and how it is called."""
    table, total = rows(), hashlib.sha256((kit() / "WHAT").read_bytes() + KEEPER.encode())
    for each in with_those_below(name):
        total.update(f"{each}: {table[each]}\n".encode())
        for path in sorted((TOP / "crates" / each / "src").rglob("*.rt")):
            text = path.read_bytes()
            total.update(f"{path.relative_to(TOP)} {len(text)}\n".encode() + text)
    return total.hexdigest()[:32]


def link_all(folder, to, but=()):
    to.mkdir()
    for entry in folder.iterdir():
        if entry.name not in but:
            (to / entry.name).symlink_to(entry)


def write_script(path, text):
    path.write_text(text)
    path.chmod(0o755)


@contextlib.contextmanager
def linked_kit(kept="/dev/null", level="-O1"):
    """Gives the path of the command `rt` of a folder of links to the kit, which keeps what it compiles under this path, optimized to this
    level: -O1 takes 48 seconds of a processor for the program, and -O0 17. Beside its compiler `rt try` asks the prover for a hint, for
    which the prover reads as much as the compiler does: here a script answers, with nothing."""
    real = kit()
    with tempfile.TemporaryDirectory(prefix="linked-kit-") as name:
        made = pathlib.Path(name) / "kit"
        link_all(real, made, ("bin", "toolchain"))
        link_all(real / "bin", made / "bin", (*COMMANDS, "rattle"))
        link_all(real / "toolchain", made / "toolchain", ("bin",))
        link_all(real / "toolchain/bin", made / "toolchain/bin", ("clang",))
        for command in COMMANDS:
            shutil.copy(real / "bin" / command, made / "bin" / command)
        write_script(made / "toolchain/bin/clang", KEEPER.format(real=real / "toolchain/bin/clang", kept=kept, level=level))
        write_script(made / "bin/rattle", "#!/bin/sh\n")
        yield made / "bin/rt"


def run(words, **how):
    return subprocess.run(words, stdin=subprocess.DEVNULL, stdout=subprocess.PIPE, stderr=subprocess.STDOUT, text=True, errors="replace", **how)


def build(crate, program):
    """Compiles the program of the crate in this folder without proofs, to this path."""
    with tempfile.TemporaryDirectory(prefix="unproved-") as room:
        kept, made = pathlib.Path(room) / "object.o", KEPT / f"part-{os.getpid()}"
        with linked_kit(kept) as command:
            tried = run([sys.executable, command, "try", "--seconds", "10"], cwd=crate)
        if not kept.exists():
            raise Refused("the program can't be compiled; the kit's messages:\n" + "\n".join(tried.stdout.splitlines()[-40:]))
        words = [kit() / "bin/rattle-link", "--target", "x86_64-unknown-linux-gnu", "--toolchain", kit() / "toolchain", "-o", made, kept]
        linked = run([*words, *(kit() / "c" / name for name in LIBRARIES)])
        if linked.returncode:
            made.unlink(missing_ok=True)
            raise Refused("the program can't be linked; the kit's messages:\n" + linked.stdout)
        made.rename(program)


def kept_program(name, total, compile_to):
    """The path of a program under this name and a sum of its sources; if there is none, `compile_to` makes it, and those of other sources
    are removed."""
    program = KEPT / f"{name}-{total}"
    KEPT.mkdir(parents=True, exist_ok=True)
    with open(KEPT / f"{name}.lock", "w") as lock:
        fcntl.flock(lock, fcntl.LOCK_EX)
        if not program.exists():
            compile_to(program)
            for each in KEPT.glob(f"{name}-*"):
                if each != program:
                    each.unlink(missing_ok=True)
    return program


def compile_replay(program):
    print("tools/unproved.py: compiling the program without proofs, in about a minute, once for these sources; bin/explain SCRIPT answers at once",
          file=sys.stderr, flush=True)
    build(TOP / "crates" / "replay", program)


def compiled():
    """The path of the program compiled from the sources as they are."""
    return kept_program("replay", sum_of("replay"), compile_replay)


def main():
    if sys.argv[1:] == ["--help"]:
        print(__doc__.strip())
        return 0
    if sys.argv[1:]:
        print("tools/unproved.py: it takes no arguments but --help", file=sys.stderr)
        return 6
    try:
        print(compiled())
    except (Refused, OSError) as fault:
        print(f"tools/unproved.py: {fault}", file=sys.stderr)
        return 70
    return 0


if __name__ == "__main__":
    sys.exit(main())
