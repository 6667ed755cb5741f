# Shared by bin/build and bin/replay, which source this file. Exit status 70: there is no program, and it couldn't be built.
top="$(cd "$(dirname "${BASH_SOURCE[0]}")/.." && pwd)" || exit 70
program="$top/crates/replay/out/replay"

# Writes a line to standard error, after the name of the script that was called.
say() {
  printf '%s: %s\n' "$(basename "$0")" "$*" >&2
}

require_kit() {
  if ! command -v rt >/dev/null; then
    say "rt, the command of the Rattle kit, isn't on the PATH; it is needed to prove and build the program"
    exit 70
  fi
}

# Prints the rows of crates.txt for these crates, or for the program's, and the crates that they depend on.
rows() {
  awk -v wanted="${*:-replay}" '
    function visit(name,    words, count, at) {
      if (seen[name]++) return
      count = split(below[name], words, " ")
      for (at = 1; at <= count; at++) if (words[at] in below) visit(words[at])
      print name kind[name] ":" below[name]
    }
    { sub(/#.*/, "") }
    /:/ {
      name = $1; sub(/:.*/, "", name); list = $0; sub(/^[^:]*:/, "", list); below[name] = list
      if ($0 ~ /^[a-z0-9_]+ +staticlib *:/) kind[name] = " staticlib"
    }
    END { count = split(wanted, roots, " "); for (root = 1; root <= count; root++) visit(roots[root]) }
  ' "$top/crates.txt"
}

# Whether what was built is up to date: no file of these crates, or of the program's and those below it, is newer.
is_up_to_date() {
  local built="${1:-$program}" places=("$top/crates.txt") name
  shift
  for name in $(rows "$@" | cut -d: -f1 | cut -d' ' -f1); do
    places+=("$top/crates/$name")
  done
  [ "$*" != replay_c ] || places+=("$top/bindings/wasm" "$top/include" "$top/bin/library.sh")
  [ -z "$(find "${places[@]}" -path '*/out' -prune -o \
    \( -name '*.rt' -o -name '*.antt' -o -name crates.txt -o -name '*.[ch]' -o -name library.sh \) -newer "$built" -print -quit)" ]
}
