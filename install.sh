#!/bin/bash
# Proves the library and puts it below PREFIX (target/install unless said): lib/libhuwekapo.a and lib/libhuwekapo.so,
# include/huwekapo.h, huwekapo_heap.h and huwekapo_record.h, lib/pkgconfig/huwekapo.pc; and the programs `report` and `widen` with an exit
# status, bin/huwekapo-report and bin/huwekapo-widen, with their manual pages. HUWEKAPO_LIB_DIR names a folder of libcapi.a, as `bash build.sh
# capi` writes it; where it is not set, the library and the programs are proved now, unless they stand as these sources make them. Where
# nothing has changed nothing is written.
set -eu
here=$(cd "$(dirname "$0")" && pwd)
if [ $# -gt 1 ] || [ "${1:-}" = --help ]; then
    echo "usage: bash install.sh [PREFIX]" >&2
    exit 2
fi
cc=${CC:-cc}
ar=${AR:-ar}

missing=0
need() {
    if ! command -v "$1" >/dev/null; then
        echo "install.sh: $1 is missing: $2" >&2
        missing=1
    fi
}
need "${cc%% *}" "the C compiler, which links the library (Debian's gcc; CC may name another)"
need "${ar%% *}" "it makes the archive (Debian's binutils; AR may name another)"
[ -n "${HUWEKAPO_LIB_DIR:-}" ] ||
    need rt "the Rattle kit, which proves the library (HUWEKAPO_LIB_DIR may name a folder of libcapi.a that is proved already)"
[ "$missing" -eq 0 ] || exit 1

prefix=${1:-$here/target/install}
mkdir -p "$prefix"
prefix=$(cd "$prefix" && pwd)
work=$(mktemp -d)
trap 'rm -r "$work"' EXIT

programs="report widen"
if [ -n "${HUWEKAPO_LIB_DIR:-}" ]; then
    archive=$(cd "$HUWEKAPO_LIB_DIR" && pwd)/libcapi.a
    if [ ! -f "$archive" ]; then
        echo "install.sh: $archive is missing: \`bash build.sh capi\` writes it to target/staticlib" >&2
        exit 1
    fi
else
    archive=$here/target/staticlib/libcapi.a
    # shellcheck disable=SC2086
    bash "$here/build.sh" capi $programs || exit 1
fi

version=$(sed -n 's/^#define HUWEKAPO_VERSION "\(.*\)"$/\1/p' "$here/include/huwekapo.h")
shared=libhuwekapo.so.${version%.*}
cp "$archive" "$work/libhuwekapo.a"
# The archive's code is position independent: the linker is told to refuse what is not, and symbols that nothing defines.
"$cc" -shared -o "$work/$shared" -Wl,-soname,"$shared" -Wl,-z,text -Wl,-z,defs -Wl,-z,noexecstack \
    -Wl,--whole-archive "$work/libhuwekapo.a" -Wl,--no-whole-archive
cat >"$work/huwekapo.pc" <<PC
prefix=\${pcfiledir}/../..
libdir=\${prefix}/lib
includedir=\${prefix}/include

Name: huwekapo
Description: A proved heap of 16-byte blocks in bitmaps, with limited reference counts
Version: $version
Cflags: -I\${includedir}
Libs: -L\${libdir} -lhuwekapo
PC

written=0
# Puts a file in its place, where another stands or none. It is written beside and renamed: who runs the old one keeps it.
put() {
    if cmp -s "$2" "$prefix/$3"; then
        return
    fi
    install -d "$prefix/$(dirname "$3")"
    install -m "$1" "$2" "$prefix/$3.new"
    mv "$prefix/$3.new" "$prefix/$3"
    written=1
}
put 644 "$here/include/huwekapo.h" include/huwekapo.h
put 644 "$here/include/huwekapo_heap.h" include/huwekapo_heap.h
put 644 "$here/include/huwekapo_record.h" include/huwekapo_record.h
put 644 "$work/libhuwekapo.a" lib/libhuwekapo.a
put 755 "$work/$shared" "lib/$shared"
put 644 "$work/huwekapo.pc" lib/pkgconfig/huwekapo.pc
if [ "$(readlink "$prefix/lib/libhuwekapo.so" || true)" != "$shared" ]; then
    ln -sf "$shared" "$prefix/lib/libhuwekapo.so"
    written=1
fi
for program in $programs; do
    if [ -x "$here/target/bin/$program" ]; then
        put 755 "$here/target/bin/$program" "libexec/huwekapo/$program"
        put 755 "$here/bin/huwekapo-$program" "bin/huwekapo-$program"
        put 644 "$here/docs/man/huwekapo-$program.1" "share/man/man1/huwekapo-$program.1"
    else
        echo "install.sh: target/bin/$program is missing, and so bin/huwekapo-$program is not installed: \`bash build.sh $program\` builds it" >&2
    fi
done
[ "$written" -eq 0 ] || echo "installed libhuwekapo $version below $prefix"
