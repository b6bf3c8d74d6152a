#!/bin/sh
# Builds sf_tool and libkiblawen.a from their LLVM modules:  CLANG=clang-22 sh build.sh [WORD ..]
# The words are for the program's linker, such as -static. A clang before 22 gets the modules as text.
set -e
cd "$(dirname "$0")"
clang=${CLANG:-clang}
form=ll
[ "$("$clang" -dumpversion | cut -d. -f1)" -lt 22 ] || form='bc'
"$clang" @sf_tool.flags -c -x ir "sf_tool.$form" -o sf_tool.o
"$clang" @libkiblawen.flags -c -x ir "libkiblawen.$form" -o sf_c.o
"$clang" -O2 -fPIE -c host.c -o host.o
"$clang" -Wl,--gc-sections,-z,relro,-z,now,-z,noexecstack "$@" sf_tool.o host.o -o sf_tool
rm -f libkiblawen.a && "${AR:-ar}" rcsD libkiblawen.a sf_c.o
