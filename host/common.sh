# shellcheck shell=bash
# Sourced by the commands in this folder and by the gate: what they need, each told in a word where it is missing.
here=$(cd "$(dirname "${BASH_SOURCE[0]}")" && pwd -P)
said=host/$(basename "$0")

need() { # COMMAND WHAT-TO-DO
  command -v "$1" >/dev/null || { echo "$said: $1 is not on PATH: $2, then run this again" >&2; exit 1; }
}

# The library is made for two processors; a third is told so before anything is proved.
known() { # PROCESSOR
  case $1 in
    x86_64 | aarch64) ;;
    *) echo "$said: there is no library for the processor $1, only for x86_64 and aarch64 (Linux)" >&2; exit 1 ;;
  esac
}

# Goes to this folder, where cargo builds all but the library by itself.
ready() {
  known "$(uname -m)"
  need cargo "install Rust 1.82 or later"
  cd "$here" || exit 1
  [ -n "${RINNAMOYLE_LIB_DIR:-}" ] || [ -d target/release/build ] ||
    echo "$said: the first build proves the library too, which takes some minutes" >&2
}
