# What the commands of this folder share; they source it.
# shellcheck shell=bash
top=$(cd "$(dirname "${BASH_SOURCE[0]}")/.." && pwd -P)
kit=$(dirname "$(rt doc)")
tools=$kit/toolchain
# What was made of which sources is kept on this machine, for other checkouts: the kit builds libraries anew in each.
kept=${XDG_CACHE_HOME:-${HOME:-/tmp}/.cache}/snowknoll/made

# Compiles C with the kit's compiler. The kit has a C library and no headers of it: those of tests/c stand in. WORDS...
compile() {
  "$tools/bin/clang" --target=x86_64-unknown-linux-gnu -nostdinc -isystem "$top/tests/c" -Wall -Wextra -Werror -pedantic "$@"
}

# Links a program: PROGRAM FILES...
link() {
  local program=$1
  shift
  "$kit/bin/rattle-link" --target x86_64-unknown-linux-gnu --toolchain "$tools" -o "$program" "$@"
}

# The sum of the kit and of what stands in files and folders of the repository, must-fail edits and what checks keep left out: PATHS...
sum_of() {
  (cd "$top" && {
    rt version
    find "$@" \( -name must-fail -o -name out \) -prune -o -type f -print0 | LC_ALL=C sort -z | xargs -0 sha256sum
  }) | sha256sum
}

# Whether a file stands as it was made, and from sources of this sum, whatever their times: FILE SUM.
stands() {
  [ -f "$1" ] && [ -f "$1.from" ] && [ "$(cat "$1.from")" = "$2 $(sha256sum <"$1")" ]
}

# Whether a file stands so, or another checkout on this machine has made it, and then it is taken: FILE SUM.
is_made() {
  local other
  other=$kept/${2%% *}/$(basename "$1")
  stands "$1" "$2" && return
  stands "$other" "$2" || return
  mkdir -p "$(dirname "$1")"
  cp "$other" "$1.new" && mv "$1.new" "$1" && cp "$other.from" "$1.from" && stands "$1" "$2"
}

# Notes that a file was made from sources of this sum: FILE SUM.
note_made() {
  local other
  other=$kept/${2%% *}/$(basename "$1")
  printf '%s\n' "$2 $(sha256sum <"$1")" >"$1.from"
  # It is kept where there is room; that it is not harms nothing.
  { mkdir -p "$(dirname "$other")" && cp "$1" "$other.$$" && mv "$other.$$" "$other" && cp "$1.from" "$other.from"; } 2>/dev/null || true
}
