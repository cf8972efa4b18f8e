# Sourced by bench/run and bench/stack: where the kit's tools are, and how the library and C become a program for x86-64.
# shellcheck shell=bash
# shellcheck disable=SC2034 # some of these only one of the two reads
cd "$(dirname "$(readlink -f "${BASH_SOURCE[0]}")")/.." || exit
kit=${RATTLE_HOME:-$(dirname "$(dirname "$(readlink -f "$(command -v rt)")")")}
tools=$kit/toolchain lib=$kit/toolchain/lib
room=$PWD/target/bench x86=(--target=x86_64-unknown-linux-gnu -march=x86-64)
twins=(check element line rectangle pass)
mkdir -p "$room"

archive() { # crates/bench/out/libbench.a
  (cd crates/bench && rt lib) >"$room/rt.log" 2>&1 || { cat "$room/rt.log"; exit 1; }
}

c() { # WORDS: the kit's clang over C; where the order is no literal it cannot unroll, and need not say so
  "$tools/bin/clang" "$@" -O3 -fPIC -Wall -Wextra -Wno-pass-failed -isystem "$(gcc -print-file-name=include)" \
    -isystem /usr/include -isystem "/usr/include/$(gcc -dumpmachine)"
}

# The loader binds memcpy and memset before main: if it did so at their first call, a measured stack would be the loader's.
program() { # NAME MORE: target/bench/NAME, of bench/NAME.c, what it needs more, the sheets, the twins and the archive
  local s objects=()
  for s in "$@" sheets "${twins[@]}"; do
    c "${x86[@]}" -c "bench/$s.c" -o "$room/$s.o"
    objects+=("$room/$s.o")
  done
  "$tools/bin/ld.lld" -pie -z now -dynamic-linker "$lib/ld-linux-x86-64.so.2" -rpath "$lib" -o "$room/$1" \
    "$lib/Scrt1.o" "$lib/crti.o" "$lib/crtbeginS.o" "${objects[@]}" crates/bench/out/libbench.a \
    "$lib/libc.so.6" "$lib/libc_nonshared.a" "$lib/libgcc.a" "$lib/ld-linux-x86-64.so.2" "$lib/crtendS.o" "$lib/crtn.o"
}

start() { # NAME WORDS: that program
  local name=$1
  shift
  exec "$room/$name" "$@"
}
