#!/usr/bin/env bash
# What can be run here, one word each: see README.md.
#
#   run.sh host       the host's tests
#   run.sh installed  the header's example, with what make install puts into a prefix
#   run.sh original   builds the original, which needs no archive
#   run.sh short      the comparison's own tests, and a comparison that takes less than a minute
#   run.sh long       millions of inputs
#   run.sh trees      the trees of these alone
#   run.sh paths      the paths of these alone
#   run.sh writing    the dictionaries that are written alone
#   run.sh objects    the objects that are written alone
#   run.sh pieces     the dictionaries in pieces alone
#   run.sh replay N   answers of the Rust's, N lines at most, on standard output
#   run.sh bench      the clock: all tables, or the one of a word
#
# Each takes the archive that is there: make archive makes it. What cannot be run for want of cargo,
# of cc and pkg-config or of the Rust's source is skipped, and said so in one line.
set -eu
task=${1:-}
[ $# -eq 0 ] || shift
cd "$(dirname "$0")"
# Neither cargo nor a make of this script can take part in the jobs of the make that may run it.
unset MAKEFLAGS MFLAGS

skip() {
  echo "skipped: $task, $*" >&2
  exit 0
}

has_cargo() {
  command -v cargo >/dev/null || skip "no cargo is here"
}

# The folder of the original's lib.rs, for the build of rust/original.
has_source() {
  local given=${LICHENHUSK_RUST_SOURCE:-../../shared/docs/src}
  [ -f "$given/lib.rs" ] || skip "the Rust's source is not at $given (LICHENHUSK_RUST_SOURCE)"
  LICHENHUSK_RUST_SOURCE=$(cd "$given" && pwd)
  export LICHENHUSK_RUST_SOURCE
}

quietly() {
  cargo "$@" --quiet --locked --offline
}

compare() {
  quietly build --release -p differential
  target/release/differential "$@"
}

# Builds the header's example as the header tells C programmers to, and holds it to what it is said
# to print. PKG_CONFIG_LIBDIR: what the system has installed must not stand in for this prefix.
installed() {
  local header flags prints wrote
  room=$(mktemp -d)
  trap 'rm -rf "$room"' EXIT
  make -s -C .. -o archive install DESTDIR= PREFIX="$room"
  header=$room/include/lichenhusk.h
  sed -n '/^ \*   #include/,/^ \*   }$/s/^ \* *//p' "$header" >"$room/example.c"
  prints=$(sed -n 's/^ \* It prints "\(.*\)"\..*/\1/p' "$header")
  export PKG_CONFIG_PATH='' PKG_CONFIG_LIBDIR="$room/lib/pkgconfig"
  flags=$(pkg-config --cflags --libs lichenhusk)
  grep -qx "version = \"$(pkg-config --modversion lichenhusk)\"" Cargo.toml ||
    { echo "lichenhusk.pc has another version than Cargo.toml" >&2 && exit 1; }
  # shellcheck disable=SC2086
  cc "$room/example.c" $flags -o "$room/example"
  wrote=$("$room/example")
  [ "$wrote" = "$prints" ] || { echo "the header's example prints: $wrote" >&2 && exit 1; }
  echo "the header's example, built by cc and pkg-config from a prefix, prints: $wrote"
}

case $task in
  host)
    has_cargo
    quietly test -p lichenhusk
    ;;
  installed)
    for tool in cc pkg-config; do
      command -v "$tool" >/dev/null || skip "no $tool is here"
    done
    installed
    ;;
  original)
    has_cargo
    has_source
    quietly build --release -p parquet-variant
    ;;
  short)
    has_cargo
    has_source
    quietly test --release -p differential
    compare short "$@"
    ;;
  long)
    has_cargo
    has_source
    compare long "$@"
    ;;
  trees | paths | writing | objects | pieces)
    has_cargo
    has_source
    compare "$task" "$@"
    ;;
  replay)
    has_cargo
    has_source
    compare replay "$@"
    ;;
  bench)
    has_cargo
    has_source
    quietly build --profile measured -p bench
    target/measured/bench "$@"
    ;;
  *)
    sed -n '2,18p' run.sh | cut -c3- >&2
    exit 2
    ;;
esac
