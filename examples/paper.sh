#!/bin/bash
# Builds the program `calls`, which makes the proved calls, runs it on the paper cases P1 to P11 of document 01, and prints each
# call in words beside the program's reply, and the maps where the case names them. Ends with status 1 where anything is not as
# documents 01 and 02 say.
set -euo pipefail
cd "$(dirname "$0")/.."
. examples/tools.sh
need rt cargo cc

echo "This proves the program calls and the libraries it rests on, and builds it. On a clean clone that takes long."
echo "target/calls.log keeps what the prover says."
echo
bash build.sh calls
build_model
model=model/target/release/model
"$model" paper >target/paper.calls
target/bin/calls <target/paper.calls >target/paper.replies
echo
"$model" show <target/paper.replies
