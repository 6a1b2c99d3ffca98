#!/bin/bash
# Proves programs (report, widen, calls) and the C library (capi), and puts them where all scripts look for them: target/bin/NAME and
# target/staticlib/libcapi.a. What stands there as these sources make it is left as it is. A line for each crate as it comes; all that the
# prover says is kept in target/NAME.log.
#
# The kit's own commands are `rt run` and `rt lib` in the folder of the crate. They leave what they build in its folder out/, which the
# next `rt ci` takes away. With --take what lies there now is taken as it is: rt has just built it of these sources.
set -euo pipefail
here=$(cd "$(dirname "$0")" && pwd)
take=false
if [ "${1:-}" = --take ]; then
    take=true
    shift
fi
for name in "$@"; do
    case $name in
    report | widen | calls | capi) ;;
    *) set -- ;;
    esac
done
if [ $# -eq 0 ]; then
    echo "usage: bash build.sh [--take] report|widen|calls|capi .." >&2
    exit 2
fi
cd "$here"

# The digest of all that is proved, and of the kit that proves it.
sources=$({
    rt version
    find crates crates.txt -path 'crates/*/out' -prune -o -type f -print0 | LC_ALL=C sort -z | xargs -0 sha256sum
} | sha256sum)

# The stamp beside what is built has the digest of the sources and its own.
stands() {
    [ -f "$1" ] && [ "$(cat "$1.stamp" 2>/dev/null)" = "$sources$(sha256sum <"$1")" ]
}

for name in "$@"; do
    case $name in
    capi) command=lib made=crates/capi/out/libcapi.a place=target/staticlib/libcapi.a ;;
    *) command=run made=crates/$name/out/$name place=target/bin/$name ;;
    esac
    ! stands "$place" || continue
    mkdir -p target "${place%/*}"
    if ! $take; then
        log=$here/target/$name.log
        echo "proving $name and what it rests on, which takes its time on a clean clone; target/$name.log has what the prover says"
        # A program is run once built, here on nothing.
        if ! (cd "crates/$name" && rt "$command") </dev/null 2>&1 | tee "$log" | sed -nu 's/^rt: chose --jobs [0-9]* for /    /p'; then
            grep -E 'error|not proved|not-proved|^rt: ' "$log" | cut -c1-1000 | tail -n 40 >&2
            echo "build.sh: $name was not proved: $log has what the prover said" >&2
            exit 1
        fi
    fi
    # Beside it and then renamed: who runs the old one keeps it.
    cp "$made" "$place.new"
    mv "$place.new" "$place"
    echo "$sources$(sha256sum <"$place")" >"$place.stamp"
done
