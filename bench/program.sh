# Sourced first by the scripts that measure the node: answers --help, goes to the top of the repository, and finds the program, which is $node.
set -euo pipefail

if [[ " $* " == *" --help "* || " $* " == *" -h "* ]]; then
    # what stands at the head of the script
    sed -n '2,/^[^#]/ s/^# \?//p' "$0"
    cat <<'END'

NODE=PROGRAM takes a program that is built already. Without it this measures crates/riak_node/out/riak_node. If that isn't there, or if
files changed since it was built, it is proved and built first: an hour or more the first time, on four processors.
The README.md in the script's folder says what is measured, and which variables choose a part.
END
    exit
fi
[ -z "${NODE:-}" ] || NODE=$(realpath "$NODE")
cd "$(dirname "${BASH_SOURCE[0]}")/.."
node=${NODE:-crates/riak_node/out/riak_node}
if [ -z "${NODE:-}" ] && { [ ! -x "$node" ] || [ -n "$(find crates/*/src crates/*/specs crates/*/proofs -type f -newer "$node" -print -quit)" ]; }; then
    echo "${0##*/}: proves and builds the node first, which takes an hour or more the first time; NODE=PROGRAM takes one that is built already" >&2
    (cd crates/riak_node && rt run -- --help >/dev/null)
fi
