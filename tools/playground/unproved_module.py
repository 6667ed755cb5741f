#!/usr/bin/env python3
"""Compiles the program without proofs into a WebAssembly module with the calls of bindings/js, and prints the path of what it made.

    tools/playground/unproved_module.py

For those who work on the playground and want its page with a program in two minutes in place of a proof of an hour:

    bin/playground --module "$(tools/playground/unproved_module.py)" > page.html

The page says that its program is unproved. The module has the checks at run time of `rt try` (tools/unproved.py says how its code is had);
unproved.c stands in place of crates/replay_c. It is kept in out/unproved/, under a sum of its sources and of the kit. It needs Debian's
libclang-rt-22-dev-wasm64, or the path of libclang_rt.builtins-wasm64.a in MIFDAGUS_BUILTINS.

Exit status: 0, or 70 if the module can't be made, or 6 for wrong arguments.
"""
import fcntl
import glob
import hashlib
import os
import pathlib
import sys
import tempfile

sys.dont_write_bytecode = True
HERE = pathlib.Path(__file__).resolve().parent
sys.path.insert(0, str(HERE.parent))

import unproved

PARTS = (HERE / "unproved.c", unproved.TOP / "bindings/wasm/heap.c", unproved.TOP / "bindings/wasm/memory.c")
# In place of the kit's clang: what `rt try` compiles last, for a sanitizer, is the program.
KEEPER = """#!/bin/sh
for word; do
  case "$word" in
    *.bc) code="$word" ;;
    -fsanitize=address) is_program=yes ;;
  esac
done
if [ "$is_program" ]; then
  cp "$code" "{kept}"
  exit 1
fi
exec "{real}" "$@"
"""


def builtins():
    """The path of compiler-rt's functions on 128-bit numbers."""
    found = sorted(glob.glob("/usr/lib/llvm-*/lib/clang/*/lib/*/libclang_rt.builtins-wasm64.a")) or [""]
    path = pathlib.Path(os.environ.get("MIFDAGUS_BUILTINS") or found[-1])
    if not path.is_file():
        raise unproved.Refused("libclang_rt.builtins-wasm64.a isn't installed: install Debian's libclang-rt-22-dev-wasm64, or set "
                               "MIFDAGUS_BUILTINS to its path")
    return path


def code_of_program(room):
    """The program as an LLVM module, before it is compiled for a machine."""
    kept = room / "module.bc"
    with unproved.linked_kit() as command:
        unproved.write_script(command.parent.parent / "toolchain/bin/clang", KEEPER.format(kept=kept, real=unproved.kit() / "toolchain/bin/clang"))
        tried = unproved.run([sys.executable, command, "try", "--seconds", "10"], cwd=unproved.TOP / "crates" / "replay")
    if not kept.exists():
        raise unproved.Refused("the program can't be compiled; the kit's messages:\n" + "\n".join(tried.stdout.splitlines()[-40:]))
    return kept


def done(words):
    ended = unproved.run(words)
    if ended.returncode:
        raise unproved.Refused("the module can't be made; the compiler's messages:\n" + ended.stdout)


def make(path):
    print("tools/playground/unproved_module.py: compiling the program without proofs, in about two minutes, once for these sources",
          file=sys.stderr, flush=True)
    clang = unproved.kit() / "toolchain/bin/clang"
    library = builtins()
    with tempfile.TemporaryDirectory(prefix="unproved-") as name:
        room = pathlib.Path(name)
        compiler = [clang, "--target=wasm64-unknown-unknown", "-O1", "-mbulk-memory"]
        done([*compiler, "-Wno-override-module", "-c", code_of_program(room), "-o", room / "code.o"])
        for part in PARTS:
            done([*compiler, "-ffreestanding", "-Wall", "-Wextra", "-Werror", "-c", part, "-o", room / (part.stem + ".o")])
        (room / "wasm-ld").symlink_to(unproved.kit() / "toolchain/bin/ld.lld")
        done([room / "wasm-ld", *sorted(room.glob("*.o")), library, "-mwasm64", "--no-entry", "--gc-sections", "--strip-debug", "--stack-first",
              "-z", "stack-size=8388608", "-o", room / "made.wasm"])
        made = path.with_name(f"part-{os.getpid()}")
        made.write_bytes((room / "made.wasm").read_bytes())
        made.rename(path)


def compiled():
    """The path of the module compiled from the sources as they are."""
    total = hashlib.sha256((unproved.sum_of("replay") + KEEPER).encode())
    for part in PARTS:
        total.update(part.read_bytes())
    path = unproved.KEPT / f"module-{total.hexdigest()[:32]}.wasm"
    unproved.KEPT.mkdir(parents=True, exist_ok=True)
    with open(unproved.KEPT / "module-lock", "w") as lock:
        fcntl.flock(lock, fcntl.LOCK_EX)
        if not path.exists():
            make(path)
    for each in unproved.KEPT.glob("module-*.wasm"):
        if each != path:
            each.unlink(missing_ok=True)
    return path


def main():
    if sys.argv[1:] == ["--help"]:
        print(__doc__.strip())
        return 0
    if sys.argv[1:]:
        print("tools/playground/unproved_module.py: it takes no arguments but --help", file=sys.stderr)
        return 6
    try:
        print(compiled())
    except (unproved.Refused, OSError) as fault:
        print(f"tools/playground/unproved_module.py: {fault}", file=sys.stderr)
        return 70
    return 0


if __name__ == "__main__":
    sys.exit(main())
