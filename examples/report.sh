#!/bin/bash
# The main job: builds the program `report`, runs it on a small history and on one of 100,000 records, and names the figures of
# each line; ends with status 1 where a line is not the model's. With files given, runs it on these instead.
set -euo pipefail
cd "$(dirname "$0")/.."
. examples/tools.sh
need rt cargo cc

names=(
    "accepted allocations"
    "blocks allocated in all"
    "largest accepted size"
    "full collections, forced or recorded"
    "most blocks in use after any record"
    "moments at which an object became stuck"
)

# The program's line for a history, with each figure named.
show() {
    local figures i
    line=$(target/bin/report <"$1")
    echo "    $line"
    case $line in "refused "*) return 0 ;; esac
    read -ra figures <<<"$line"
    [ "${#figures[@]}" -eq "${#names[@]}" ] || exit 1
    for i in "${!names[@]}"; do
        printf '    %10s  %s\n' "${figures[i]}" "${names[i]}"
    done
}

# The same, held against the model's line.
show_and_compare() {
    local due
    show "$1"
    due=$("$model" history run <"$1")
    if [ "$line" != "$due" ]; then
        echo "DIFFERENT: the model's line is $due"
        exit 1
    fi
}

echo "This proves the program report and the libraries it rests on, a line for each crate, and builds it. On a clean clone"
echo "that takes long; once it is built, a second. target/report.log keeps what the prover says."
echo
bash build.sh report

if [ "$#" -gt 0 ]; then
    for file in "$@"; do
        [[ $file = /* ]] || file=$OLDPWD/$file
        echo
        echo "$file"
        show "$file"
    done
    exit 0
fi

build_model
model=model/target/release/model

example=examples/histories/cycle.txt
echo
echo "A small history, $example:"
echo
sed 's/^/    /' "$example"
"$model" history assemble <"$example" >target/cycle.history
echo
echo "target/bin/report <target/cycle.history"
show_and_compare target/cycle.history

"$model" history mixed 1 100000 >target/mixed.history
echo
echo "100,000 records, written by the model: target/bin/report <target/mixed.history"
show_and_compare target/mixed.history

echo
echo "A history of your own, in twelve-byte records (docs/FILES.md has their form):"
echo "    target/bin/report <FILE"
echo "    bash examples/report.sh FILE ..    # with the figures named"
echo "One written by hand, as examples/histories/*.txt are (docs/FILES.md has the words):"
echo "    $model history assemble <TEXT >FILE"
