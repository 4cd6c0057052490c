#!/usr/bin/env bash
# Makes an archive like that of `rt lib` in crates/lichenhusk_c, for a processor that need not be
# the one at hand.
#
#   native_archive.sh [OUT [MACHINE]]
#
# OUT: target/native/liblichenhusk.a, where the host's crate looks on a machine that is not x86-64.
# MACHINE: x86_64 or aarch64, in the words of uname -m; the one at hand if left out.
#
# `rt` runs on x86-64 and compiles for it alone. Here the LLVM module that it makes is kept and compiled
# once more with the same flags. For aarch64, three things in the module's text are changed before:
# the target triple, the data layout and the processor's attributes. What is proved stops at the module
# as it was. The exported functions take pointers and 64-bit numbers and return 32-bit ones.
#
# Tried with this kit, on x86-64, over a crate of one call: the archive for x86-64 has the very bytes of
# rt's own; that for aarch64 is compiled, and has the same symbol. NOT tried with this kit: to link or run
# one for aarch64. With the kit before this one, which ran on aarch64 too, the host's tests, the header's
# example and the short comparison passed there (docs/LANDINGS.md).
#
# Where there is no rt, as on an aarch64 machine, an archive that was brought to OUT stays as it is.
set -eu

die() {
  echo "native_archive.sh: $*" >&2
  exit 1
}

root=$(cd "$(dirname "$0")/.." && pwd -P)
out=${1:-$root/target/native/liblichenhusk.a}
machine=${2:-$(uname -m)}
if ! command -v rt >/dev/null; then
  [ -f "$out" ] || die "no rt is here; on x86-64, $0 FILE $machine makes the archive to be brought to $out"
  echo "skipped: no rt is here, so ${out#"$root/"} stays as it is" >&2
  exit 0
fi
case $machine in x86_64 | aarch64) ;; *) die "it knows x86_64 and aarch64, not $machine" ;; esac
kit=$(cd "$(dirname "$(readlink -f "$(command -v rt)")")/.." && pwd -P)
tools=$kit/toolchain/bin
"$tools/clang" --version >/dev/null 2>&1 || die "the kit has no clang that runs here"
mkdir -p "$(dirname "$out")"
out=$(cd "$(dirname "$out")" && pwd -P)/$(basename "$out")
room=$(mktemp -d)
trap 'rm -rf "$room"' EXIT

quietly() { "$@" >"$room/said" 2>&1 || { cat "$room/said" >&2 && die "$* failed"; }; }

# All is proved, and rt's own archive made, by rt itself.
cd "$root/crates/lichenhusk_c"
[ -f out/liblichenhusk_c.a ] || quietly rt all check --jobs "$(nproc)"
quietly rt lib
cp out/liblichenhusk_c.a "$room/own.a"

# A kit of links to the kit, but for its clang. (rt finds its kit by where its own file lies.)
links() { # FOLDER NAME..: to all in the kit's FOLDER but these names
  local folder=$1 entry
  shift
  mkdir -p "$room/kit/$folder"
  for entry in "$kit/$folder"/*; do
    case " $* " in *" ${entry##*/} "*) ;; *) ln -s "$entry" "$room/kit/$folder" ;; esac
  done
}
links . bin toolchain
links bin rt rtlib.py
cp "$kit/bin/rt" "$kit/bin/rtlib.py" "$room/kit/bin"
links toolchain bin
links toolchain/bin clang ld.lld llvm-ar
ln -s "$tools/ld.lld" "$tools/llvm-ar" "$room/kit/toolchain/bin"
# It is run with no environment, so all that it needs is in its text.
cat >"$room/kit/toolchain/bin/clang" <<END
#!/bin/sh
PATH='$PATH'
[ ! -e '$room/words' ] || { echo 'a second module is compiled' >&2; exit 1; }
printf '%s\n' "\$@" >'$room/words' && cp module.bc '$room' && exec '$tools/clang' "\$@"
END
chmod +x "$room/kit/toolchain/bin/clang"

# That kit makes the archive once more, over what was proved.
quietly "$room/kit/bin/rt" lib
cmp -s out/liblichenhusk_c.a "$room/own.a" || die "the second archive is not the first"

cd "$room"
clang() { "$tools/clang" "$@"; }
clang --target=x86_64-unknown-linux-gnu -x ir module.bc -Xclang -disable-llvm-passes \
  -S -emit-llvm -o module.ll
made="compiled again for x86-64"
if [ "$machine" = aarch64 ]; then
  made="retargeted to aarch64"
  layout=e-m:e-p270:32:32-p271:32:32-p272:64:64-i8:8:32-i16:16:32-i64:64-i128:128-n32:64-S128-Fn32
  sed -i -e "s/^target datalayout = .*/target datalayout = \"$layout\"/" \
    -e 's/^target triple = .*/target triple = "aarch64-unknown-linux-gnu"/' \
    -e 's/"target-cpu"="[^"]*"/"target-cpu"="generic"/; s/ "probe-stack"="[^"]*"//' module.ll
  sed -i -e 's/^--target=.*/--target=aarch64-unknown-linux-gnu/' -e '/^-march=/d' words
  ! grep x86 module.ll >&2 || die "the module still speaks of x86"
fi
# (the archive's member has the name that rt gives it)
mapfile -t words < <(sed -e 's/^module\.bc$/module.ll/' -e 's/^module\.o$/lichenhusk_c.o/' words)
clang "${words[@]}"
"$tools/llvm-ar" rcsD --format=gnu liblichenhusk.a lichenhusk_c.o
cp liblichenhusk.a "$out"
echo "${out#"$root/"}: rt's module of lichenhusk_c, $made; what is proved stops at the module"
