#!/usr/bin/env bash
# Makes the histories of this folder anew: fetches three packages of Debian 12, runs their programs on small inputs under the tracer of
# examples/java, converts what was recorded by the rule `uses`, and checks the conversion. rules.txt has both rules by count width. Needs
# libhuwekapo.so (`bash install.sh`), a network, apt-get and a JDK 17; where a history comes out other than it stands, git shows it.
set -euo pipefail
here=$(cd "$(dirname "$0")" && pwd)
top=$(cd "$here/../.." && pwd)
export LC_ALL=C PYTHONPATH=$top/python

# Programs see the names of their files: a folder of the same name on every machine.
work=/tmp/huwekapo-real
mkdir "$work"
trap 'rm -r "$work"' EXIT
cd "$work"

apt-get -qq download jlex=1.2.6-12 libjdepend-java=2.10-1 libhtmlparser-java=1.6.20060610.dfsg0-9
for package in *.deb; do
    dpkg-deb --extract "$package" .
done
java=usr/share/java
head -n 127 usr/share/doc/jlex/examples/sample.lex >sample.lex
head -n 60 usr/share/doc/jlex/manual.html >page.html
# In one order, and not in that of a folder.
mkdir classes
(cd classes && jar --extract --file ../$java/jdepend-2.10.jar jdepend/framework)
(cd classes && find jdepend -name '*.class' | sort | xargs jar --create --no-manifest --file ../framework.jar)

# NAME BLOCKS MAIN JAR ARGUMENT..
history() {
    local name=$1 blocks=$2 main=$3 jar=$4
    shift 4
    echo "== $name"
    bash "$top/examples/java/trace.sh" --events -o "$name" --main "$main" "$jar" "$@" >"$name.printed"
    "${PYTHON:-python3}" -m huwekapo convert "$name.events" -o "$here/$name.history" --stack uses --check --table --blocks "$blocks" | tee converted
    {
        echo "$name"
        sed -n '/^both rules/,$p' converted | tail -n +2
    } >>"$here/rules.txt"
}
: >"$here/rules.txt"
history jlex 4096 JLex.Main $java/JLex-1.2.6.jar sample.lex
history jdepend 4096 jdepend.textui.JDepend $java/jdepend-2.10.jar framework.jar
history htmlparser 16384 org.htmlparser.Parser $java/libhtmlparser-1.6.20060610.jar page.html
