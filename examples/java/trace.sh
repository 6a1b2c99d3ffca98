#!/usr/bin/env bash
# From an unmodified Java program to its history and a table by count width: runs it under the agent beside this script, with a JDK 17,
# and converts what was recorded. README.md beside it says what is recorded and what is not.
set -euo pipefail
here=$(cd "$(dirname "$0")" && pwd)
top=$(cd "$here/../.." && pwd)

usage() {
    cat <<WORDS
usage: bash examples/java/trace.sh [OPTION..] PROGRAM [ARGUMENT..]
  PROGRAM       a jar that says which class is its main one; with --main a class path: jars, folders of classes, parted by colons
  -o NAME       writes NAME.events and NAME.history (the program's name, in this folder)
  --main CLASS  the class whose main method is run
  --events      the events alone: no history, no table
  Other options are those of the command convert: --stack uses (slots), --blocks N (4096), --header WORDS, --leave-out BYTES,
  --classes PATTERN, --check, --no-check.
exit status: that of convert; 1 also where the program was not traced to its end, or a cell is not as it was recorded
WORDS
}
wrong() {
    echo "trace.sh: $2" >&2
    exit "$1"
}

name='' main='' only_events='' options=()
while [ $# -gt 0 ]; do
    case $1 in
    --help) usage && exit ;;
    --events) only_events=yes ;;
    --check | --no-check) options+=("$1") ;;
    -o | --main | --stack | --blocks | --header | --leave-out | --classes)
        [ $# -gt 1 ] || wrong 2 "$1 wants a word behind it"
        case $1 in
        -o) name=$2 ;;
        --main) main=$2 ;;
        *) options+=("$1" "$2") ;;
        esac
        shift
        ;;
    -*) wrong 2 "$1 is no option; --help names them" ;;
    *) break ;;
    esac
    shift
done
[ $# -gt 0 ] || { usage >&2 && exit 2; }
program=$1
shift

# The JDK: that of JAVA_HOME, or that of the path.
for tool in java javac jar; do
    declare "$tool=${JAVA_HOME:+$JAVA_HOME/bin/}$tool"
    command -v "${!tool}" >/dev/null || wrong 1 "$tool is missing: a JDK 17 is needed (Debian's openjdk-17-jdk-headless; JAVA_HOME may name one)"
done
# shellcheck disable=SC2154
found=$("$java" -version 2>&1 | sed -n '1s/.*version "\([0-9]*\).*/\1/p')
[ "$found" = 17 ] || wrong 1 "this is a JDK $found: the agent uses parts that only JDK 17 is known to have (JAVA_HOME may name one)"

exports=()
for package in misc org.objectweb.asm org.objectweb.asm.commons org.objectweb.asm.tree; do
    exports+=(--add-exports "java.base/jdk.internal.$package=ALL-UNNAMED")
done
agent=$top/target/java/huwekapo-trace.jar
work=$(mktemp -d)
trap 'rm -r "$work"' EXIT
if [ ! -f "$agent" ] || [ -n "$(find "$here/huwekapo" "$here/manifest" -newer "$agent" -print -quit)" ]; then
    mkdir -p "$top/target/java"
    # shellcheck disable=SC2154
    "$javac" -Xlint:all -Werror -XDignore.symbol.file "${exports[@]}" -d "$work/classes" "$here"/huwekapo/trace/*.java
    # shellcheck disable=SC2154
    "$jar" --create --file "$work/agent.jar" --manifest "$here/manifest" -C "$work/classes" .
    mv "$work/agent.jar" "$agent"
fi

IFS=: read -ra parts <<<"$program"
for part in "${parts[@]}"; do
    [ -e "$part" ] || wrong 1 "$part: there is no such file or folder"
done
if [ -z "$main" ]; then
    [ -f "$program" ] || wrong 2 "$program: is no jar; --main says which class to run"
    jar_file=$(realpath "$program")
    (cd "$work" && "$jar" --extract --file "$jar_file" META-INF/MANIFEST.MF) || wrong 1 "$program: can't be read"
    # A long line goes on in the next, behind a space.
    main=$(tr -d '\r' <"$work/META-INF/MANIFEST.MF" | sed -e ':a' -e 'N' -e '$!ba' -e 's/\n //g' | sed -n 's/^Main-Class: *//p')
    [ -n "$main" ] || wrong 2 "$program: does not say which class is its main one; --main does"
fi
[ -n "$name" ] || name=$(basename "${parts[0]}" .jar)

# One compiler, and not the one that has code of its own for methods that are recorded.
status=0
"$java" -XX:TieredStopAtLevel=1 -Xshare:off -XX:+UseSerialGC "${exports[@]}" "-javaagent:$agent=$main $name.events" \
    -cp "$program" "$main" "$@" || status=$?
[ "$status" -eq 0 ] || echo "trace.sh: the program ended with status $status" >&2
ended=$(tail -n 1 "$name.events" 2>/dev/null | sed -n 's/^# .*, \([0-9]*\) not$/\1/p')
[ -n "$ended" ] || wrong 1 "$program was not traced to its end"
[ "$ended" -eq 0 ] || echo "trace.sh: $ended cells are not as they were recorded: this is not quite what the program did" >&2

status=0
if [ -z "$only_events" ]; then
    PYTHONPATH=$top/python${PYTHONPATH:+:$PYTHONPATH} "${PYTHON:-python3}" -m huwekapo convert "$name.events" -o "$name.history" --table \
        ${options[@]+"${options[@]}"} || status=$?
fi
[ "$ended" -eq 0 ] || [ "$status" -ne 0 ] || status=1
exit "$status"
