#!/usr/bin/env python3
"""Compiles the library for C, and the module for web pages, without proofs, and prints the folder of what it made.

    tools/unproved_library.py [--web] [--crates FOLDER]

Like tools/unproved.py it calls the kit's `rt try` by way of a folder of links to the kit, here to keep the LLVM module. What `rt try` compiles
is a program whose main calls each export of crates/replay_c; in the module that it makes, the exports get the names that C knows. So what is
made has the checks of `rt try` in the place of proofs: it ends with a signal where an index is out of bounds, for example. With --web the
same module is compiled for WebAssembly too, with the allocator of bindings/wasm. --crates takes another folder with this repository's
crates, such as a copy with a planted fault.

What is made stands in out/unproved/library/, which git ignores, under a sum of all its sources and of the kit: libmifdagus.a, libmifdagus.so
and mifdagus.wasm. tests/bindings --unproved and tools/sweep use it.

Exit status: 0, or 70 if it can't be compiled, or 6 for wrong arguments.
"""
import argparse
import fcntl
import os
import pathlib
import re
import shutil
import subprocess
import sys
import tempfile

sys.dont_write_bytecode = True
sys.path.insert(0, str(pathlib.Path(__file__).resolve().parent))

import unproved

TOP = unproved.TOP
KEPT = TOP / "out" / "unproved" / "library"
# In place of the kit's clang: nothing more is needed once the program's module is there, which the small one that `rt try` begins with isn't.
KEEPER = """#!/bin/sh
for word; do case "$word" in *.bc) if [ "$(wc -c <"$word")" -gt 1000000 ]; then cp "$word" "{kept}"; exit 1; fi ;; esac; done
exec "{real}" "$@"
"""
# A value for each type of a parameter in a call that is compiled and never made.
VALUES = {"Global": "rt.alloc()", "u64": "1", "&[u8]": "&[1]", "&mut [u8]": "&mut reply", "&mut usize": "&mut needed"}
EXPORT = re.compile(r'pub extern "C" fn (mifdagus_raw_\w+)\((.*?)\)\s*->\s*u8', re.S)
MAIN = """
fn main(rt: HostRuntime) -> std::process::ExitCode {
    let mut reply = [0; 4];
    let mut needed = 0;
    let mut code = 0;
%s    std::process::ExitCode::from(code)
}
"""
# Where a program isn't given room of its own: code that a shared library can take, each function apart, as the kit compiles it.
COMMON = ["-Wno-override-module", "-ffunction-sections", "-fdata-sections", "-fPIC", "-march=x86-64", "-mllvm", "-no-trap-after-noreturn"]


class Refused(Exception):
    """The library can't be compiled."""


def done(words, what, **how):
    ended = subprocess.run([str(word) for word in words], stdin=subprocess.DEVNULL, stdout=subprocess.PIPE, stderr=subprocess.STDOUT, **how)
    if ended.returncode:
        last = "\n".join(ended.stdout.decode(errors="replace").splitlines()[-40:])
        raise Refused(f"{what}; the messages:\n{last}")


def exports(crates):
    """The exports of replay_c: their names, and a call of each."""
    text = (crates / "replay_c" / "src" / "lib.rt").read_text()
    calls = {}
    for name, parameters in EXPORT.findall(text):
        types = [part.partition(":")[2].strip() for part in parameters.split(",") if part.strip()]
        calls[name] = f"{name}({', '.join(VALUES[each] for each in types)})"
    return calls


def copy_crates(crates, to):
    """A repository whose program `replay` is replay_c with a main that calls each export."""
    shutil.copy(TOP / "HANDLES", to)
    (to / ".git").mkdir()
    table = unproved.rows()
    rows = [f"{name if name != 'replay_c' else 'replay'}: {' '.join(table[name])}" for name in unproved.with_those_below("replay_c")]
    (to / "crates.txt").write_text("\n".join(rows) + "\n")
    for name in unproved.with_those_below("replay_c"):
        own = to / "crates" / ("replay" if name == "replay_c" else name)
        for part in ("src", "specs", "proofs"):
            if (crates / name / part).exists():
                shutil.copytree(crates / name / part, own / part)
    program = to / "crates" / "replay" / "src" / "main.rt"
    (program.parent / "lib.rt").rename(program)
    calls = "".join(f"    code = code | {call};\n" for call in exports(crates).values())
    program.write_text(program.read_text() + MAIN % calls)


def keep_module(repository, module):
    """Compiles the program of this repository up to its LLVM module."""
    own, unproved.KEEPER = unproved.KEEPER, KEEPER.replace("{level}", "")
    try:
        with unproved.linked_kit(module) as command:
            tried = unproved.run([sys.executable, command, "try", "--seconds", "1"], cwd=repository / "crates" / "replay")
    finally:
        unproved.KEEPER = own
    if not module.exists():
        raise Refused("the library can't be compiled; the kit's messages:\n" + "\n".join(tried.stdout.splitlines()[-40:]))


def name_exports(text):
    """The module's text with the exports under their names in C, and without a main of its own."""
    named = re.sub(r'@"replay::(mifdagus_raw_[a-z_]+)"', r"@\1", text)
    named = re.sub(r"^define internal (.*?@mifdagus_raw_)", r"define \1", named, flags=re.M)
    return re.sub(r"^define i32 @main\(\)", "define internal i32 @the_main()", named, flags=re.M)


def write_text(clang, module, text):
    done([clang, "--target=x86_64-unknown-linux-gnu", "-x", "ir", module, "-S", "-emit-llvm", "-Xclang", "-disable-llvm-passes", "-O0",
          "-o", text], "the module can't be read")
    text.write_text(name_exports(text.read_text()))


def make_archive(kit, room, text):
    """The archive and the shared library, as bin/library.sh makes them of the proved text."""
    done([kit / "toolchain/bin/clang", "--target=x86_64-unknown-linux-gnu", *COMMON, "-O1", "-c", "-x", "ir",
          text, "-o", room / "code.o"], "the module can't be compiled")
    (room / "parts").mkdir()
    done([kit / "toolchain/bin/llvm-ar", "x", kit / "c/liblibc_c.a"], "the kit's library can't be read", cwd=room / "parts")
    parts = sorted((room / "parts").glob("*.o"))
    done([kit / "toolchain/bin/llvm-ar", "qcs", room / "libmifdagus.a", room / "code.o", *parts], "the archive can't be written")
    names = "".join(f"{name};\n" for name in exports(TOP / "crates"))
    (room / "exports").write_text("{ global:\n" + names + "local: *; };\n")
    done([os.environ.get("CC", "cc"), "-shared", "-nostartfiles", "-Wl,--whole-archive", room / "libmifdagus.a", "-Wl,--no-whole-archive",
          "-Wl,--gc-sections", f"-Wl,--version-script={room / 'exports'}", "-Wl,-soname,libmifdagus.so", "-o", room / "libmifdagus.so"],
         "the shared library can't be linked")


def make_module(kit, room, text):
    """The module for web pages, with the words of bin/library.sh."""
    clang = kit / "toolchain/bin/clang"
    found = os.environ.get("MIFDAGUS_BUILTINS") or max(map(str, pathlib.Path("/usr/lib").glob(
        "llvm-*/lib/clang/*/lib/wasm64-unknown-unknown/libclang_rt.builtins.a")), default="") or max(map(str, pathlib.Path("/usr/lib").glob(
            "llvm-*/lib/clang/*/lib/**/libclang_rt.builtins-wasm64.a")), default="")
    if not found:
        raise Refused("libclang_rt.builtins-wasm64.a isn't installed: install Debian's libclang-rt-22-dev-wasm64, or set MIFDAGUS_BUILTINS to its path")
    words = [clang, "--target=wasm64-unknown-unknown", "-O2", "-mbulk-memory"]
    done([*words, "-Wno-override-module", "-c", "-x", "ir", text, "-o", room / "web.o"], "the module can't be compiled for WebAssembly")
    for part in ("heap", "memory"):
        done([*words, "-ffreestanding", "-fno-builtin", "-Wall", "-Wextra", "-Werror", "-c", TOP / f"bindings/wasm/{part}.c", "-o",
              room / f"{part}.o"], "the allocator can't be compiled")
    (room / "wasm-ld").symlink_to(clang.with_name("ld.lld"))
    done([room / "wasm-ld", room / "web.o", room / "heap.o", room / "memory.o", found, "-mwasm64", "--no-entry", "--gc-sections", "--strip-debug",
          "--stack-first", "-z", "stack-size=8388608", *(f"--export={name}" for name in exports(TOP / "crates")), "-o", room / "mifdagus.wasm"],
         "the module can't be linked")


def put(made, path):
    """Moves a file, from another file system too, so that it is seen whole or not at all."""
    part = path.with_name(f"part-{os.getpid()}")
    shutil.move(made, part)
    part.rename(path)


def make(crates, folder, web):
    """Compiles into this folder the library, or the module for web pages."""
    print("tools/unproved_library.py: compiling without proofs, in about a minute, once for these sources", file=sys.stderr, flush=True)
    kit, text = unproved.kit(), folder / "module.ll"
    # Not below the checkout: there, `rt` refuses to do anything as long as it finds a second crates.txt.
    with tempfile.TemporaryDirectory(prefix="unproved-library-") as name:
        room = pathlib.Path(name)
        if not text.exists():
            (room / "repository").mkdir()
            copy_crates(crates, room / "repository")
            keep_module(room / "repository", room / "module.bc")
            write_text(kit / "toolchain/bin/clang", room / "module.bc", room / "module.ll")
            put(room / "module.ll", text)
        (make_module if web else make_archive)(kit, room, text)
        for each in ["mifdagus.wasm"] if web else ["libmifdagus.so", "libmifdagus.a"]:
            put(room / each, folder / each)


def sum_of(crates):
    own, unproved.TOP = unproved.TOP, crates.parent
    try:
        return unproved.sum_of("replay_c")
    finally:
        unproved.TOP = own


def compiled(crates=TOP / "crates", web=False):
    """The folder with the library compiled from these crates as they are, beside whose folder there is a crates.txt."""
    folder, wanted = KEPT / sum_of(crates), ["libmifdagus.a", *["mifdagus.wasm"] * web]
    if all((folder / name).exists() for name in wanted):
        return folder
    folder.mkdir(parents=True, exist_ok=True)
    with open(folder / "lock", "w") as lock:
        fcntl.flock(lock, fcntl.LOCK_EX)
        for name in wanted:
            if not (folder / name).exists():
                make(crates, folder, name == "mifdagus.wasm")
    return folder


def main():
    asked = argparse.ArgumentParser(description=__doc__, formatter_class=argparse.RawDescriptionHelpFormatter)
    asked.add_argument("--web", action="store_true", help="the module for web pages too")
    asked.add_argument("--crates", metavar="FOLDER", type=pathlib.Path, default=TOP / "crates", help="another folder of crates")
    try:
        given = asked.parse_args()
    except SystemExit as wrong:
        return 6 if wrong.code else 0
    try:
        print(compiled(given.crates.resolve(), given.web))
    except (Refused, unproved.Refused, OSError, KeyError) as fault:
        print(f"tools/unproved_library.py: {fault}", file=sys.stderr)
        return 70
    return 0


if __name__ == "__main__":
    sys.exit(main())
