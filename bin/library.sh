# Builds the library and the module for web pages from the proved crate replay_c; bin/build sources this file, behind bin/common.sh.
# What the kit can't build for WebAssembly by itself is built from the LLVM module that it makes of the proved crate, which is kept on its
# way to the kit's clang.
# shellcheck shell=bash
: "${top:?}" "${room:=}"
library="$top/out/libmifdagus.a"
web="$top/out/mifdagus.wasm"

kit_folder() {
  dirname "$(dirname "$(readlink -f "$(command -v rt)")")"
}

# Makes a toolchain folder like the kit's, whose clang also keeps the module that it is given.
make_toolchain() {
  local kit="$1" it
  mkdir -p "$room/toolchain/bin" || return 1
  ln -s "$kit/toolchain/lib" "$room/toolchain/lib" || return 1
  for it in "$kit"/toolchain/bin/*; do
    [ "$(basename "$it")" = clang ] || ln -s "$it" "$room/toolchain/bin/" || return 1
  done
  cat >"$room/toolchain/bin/clang" <<END
#!/usr/bin/env bash
for word in "\$@"; do case "\$word" in *.bc) cp "\$word" '$room/module.bc' ;; esac; done
exec '$kit/toolchain/bin/clang' "\$@"
END
  chmod +x "$room/toolchain/bin/clang"
}

# Prints the words with which the kit's compiler checks replay_c over the libraries that were proved in the copy.
words_for_archive() {
  local kit="$1" crates="$room/repository/crates" name
  printf '%s\n' --crate-name replay_c src/lib.rt --extern "std=$kit/rlibs/std.rlib" -L "dependency=$kit/rlibs"
  for name in $(sed -n 's/^replay_c staticlib://p' "$room/repository/crates.txt"); do
    printf '%s\n' --extern "$name=$crates/$name/out/rlib/$name.rlib"
  done
  for name in $(rows replay_c | cut -d: -f1 | grep -v ' staticlib$'); do
    printf '%s\n' -L "dependency=$crates/$name/out/rlib"
  done
  printf '%s\n' --antt-project "$kit/rattle/logic/antt-project.json" --logic-built "$kit/logic_built" --links replay_c= \
    --crate-type staticlib --toolchain "$room/toolchain" --backend llvm -o "$room/libreplay_c.a"
}

# Compiles the proved crate; the kit's three functions in C that call malloc, realloc and free are put into the archive too.
build_archive() {
  local kit words
  kit="$(kit_folder)" || return 1
  make_toolchain "$kit" || return 1
  mapfile -t words < <(words_for_archive "$kit")
  (cd "$room/repository/crates/replay_c" && "$kit/bin/rattle" build "${words[@]}") >>"$room/log" 2>&1 || return 1
  (cd "$room" && mkdir parts && cd parts && "$room/toolchain/bin/llvm-ar" x ../libreplay_c.a &&
    "$room/toolchain/bin/llvm-ar" x "$kit/c/liblibc_c.a" && "$room/toolchain/bin/llvm-ar" qcs ../libmifdagus.a ./*.o) >>"$room/log" 2>&1
}

# Prints what a page or a program calls.
exports() {
  sed -n 's/^pub extern "C" fn \(mifdagus_raw_[a-z_]*\)(.*/\1/p' "$top/crates/replay_c/src/lib.rt"
}

write_pkg_config() {
  cat <<END
prefix=$1
libdir=\${prefix}/lib
includedir=\${prefix}/include

Name: mifdagus
Description: A model, with proved behaviour, of the part of a browser that notifies a page of sizes and visibility
Version: 1.0.0
Libs: -L\${libdir} -lmifdagus
Cflags: -I\${includedir}
END
}

# Links the shared library, which exports the calls alone.
link_shared() {
  { echo '{ global:' && exports | sed 's/$/;/' && echo 'local: *; };'; } >"$room/exports"
  "${CC:-cc}" -shared -nostartfiles -Wl,--whole-archive "$room/libmifdagus.a" -Wl,--no-whole-archive \
    -Wl,--gc-sections -Wl,--version-script="$room/exports" -Wl,-soname,libmifdagus.so -o "$room/libmifdagus.so" >>"$room/log" 2>&1
}

# Puts the library into out/, in the folders that an installation has.
take_library() {
  mkdir -p "$top/out/include" "$top/out/pkgconfig" || return 1
  cp "$top/include/mifdagus.h" "$top/out/include/" || return 1
  write_pkg_config "$top/out" | sed 's|/lib$||' >"$top/out/pkgconfig/mifdagus.pc" || return 1
  mv "$room/libmifdagus.so" "$top/out/" || return 1
  cp "$room/libmifdagus.a" "$library.new" && mv "$library.new" "$library"
}

# Prints the path of compiler-rt's functions on 128-bit numbers for 64-bit WebAssembly.
builtins() {
  local found
  found="$(find /usr/lib/llvm-*/lib/clang -name 'libclang_rt.builtins-wasm64.a' 2>/dev/null | sort -V | tail -n 1)"
  printf '%s\n' "${MIFDAGUS_BUILTINS:-$found}"
}

require_builtins() {
  [ -f "$(builtins)" ] && return
  say "libclang_rt.builtins-wasm64.a isn't installed: install Debian's libclang-rt-22-dev-wasm64, or set MIFDAGUS_BUILTINS to its path"
  exit 70
}

# Compiles the module that was kept for WebAssembly, and links it with the allocator of bindings/wasm. It may import nothing. Its stack lies
# at the start of its memory, so that a call that needs more of it stops the module.
build_web() {
  local clang part compile
  clang="$(kit_folder)/toolchain/bin/clang" || return 1
  compile=("$clang" --target=wasm64-unknown-unknown -O2 -mbulk-memory)
  "${compile[@]}" -Wno-override-module -c "$room/module.bc" -o "$room/code.o" >>"$room/log" 2>&1 || return 1
  for part in heap memory; do
    "${compile[@]}" -ffreestanding -fno-builtin -Wall -Wextra -Werror -c "$top/bindings/wasm/$part.c" -o "$room/$part.o" \
      >>"$room/log" 2>&1 || return 1
  done
  ln -s "$clang" "$room/wasm-ld" || return 1
  # shellcheck disable=SC2046
  "$room/wasm-ld" "$room/code.o" "$room/heap.o" "$room/memory.o" "$(builtins)" -mwasm64 --no-entry --gc-sections \
    --strip-debug --stack-first -z stack-size=8388608 $(exports | sed 's/^/--export=/') -o "$room/mifdagus.wasm" >>"$room/log" 2>&1
}

take_web() {
  mkdir -p "$top/out" && cp "$room/mifdagus.wasm" "$top/bindings/js/mifdagus.wasm" && mv "$room/mifdagus.wasm" "$web" || return 1
  printf 'built %s: %d bytes, %d compressed\n' "${web#"$top/"}" "$(wc -c <"$web")" "$(gzip -9 <"$web" | wc -c)"
}

install_library() {
  local prefix="${PREFIX:-/usr/local}"
  if mkdir -p "$prefix/lib/pkgconfig" "$prefix/include" && cp "$library" "$top/out/libmifdagus.so" "$prefix/lib/" &&
    cp "$top/out/include/mifdagus.h" "$prefix/include/" && write_pkg_config "$prefix" >"$prefix/lib/pkgconfig/mifdagus.pc"; then
    printf 'installed in %s\n' "$prefix"
  else
    say "the library couldn't be installed in $prefix: set PREFIX to a folder that you may write to"
    exit 70
  fi
}
