#!/bin/bash
# Builds and runs the C examples against the proved library. HUWEKAPO_LIB_DIR names the folder of libcapi.a; where it is not
# set, `bash build.sh capi` proves the library and writes it to target/staticlib.
set -eu
cd "$(dirname "$0")/.."
if [ -z "${HUWEKAPO_LIB_DIR:-}" ]; then
    bash build.sh capi
    HUWEKAPO_LIB_DIR=target/staticlib
fi
mkdir -p target
for example in paper runs; do
    # The header serves C and C++ alike.
    "${CC:-cc}" -std=c11 -Wall -Wextra -Wpedantic -Werror -O2 -Iinclude "examples/$example.c" "$HUWEKAPO_LIB_DIR/libcapi.a" \
        -o "target/${example}_c"
    "${CXX:-c++}" -x c++ -std=c++11 -Wall -Wextra -Wpedantic -Werror -fsyntax-only -Iinclude "examples/$example.c"
    "target/${example}_c"
done
