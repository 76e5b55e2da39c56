# Sourced by the runs that have a program of their own. It makes a folder `$room` for a benchmark's crate: the repository's gate knows no programs but its
# crates, and refuses a .rt file or a crates.txt anywhere else.
set -euo pipefail
top=$(cd "$(dirname "${BASH_SOURCE[0]}")/.." && pwd)
room=$(mktemp -d)
trap 'rm -rf "$room"' EXIT
cp "$top/HANDLES" "$room"
git init -q "$room"

# Lists a crate and those below it in the room.
listed=" "
list() { # CRATE
    case "$listed" in *" $1 "*) return ;; esac
    local line
    line=$(grep -E "^$1( [^:]*)?:" "$top/crates.txt") || return 0
    listed+="$1 "
    echo "$line" >>"$room/crates.txt"
    for below in ${line#*:}; do list "$below"; done
}

# Brings the repository's crates that a program stands on into the room, with what is proved of them, and lists the program.
stand_on() { # PROGRAM CRATE..
    local crate part
    for crate in "${@:2}"; do list "$crate"; done
    for crate in $listed; do
        [ ! -d "$room/crates/$crate" ] || continue
        mkdir -p "$room/crates/$crate"
        for part in src specs proofs out; do
            [ ! -d "$top/crates/$crate/$part" ] || cp -a --reflink=auto "$top/crates/$crate/$part" "$room/crates/$crate/$part"
        done
    done
    echo "$1: ${*:2} anyhow" >>"$room/crates.txt"
    mkdir -p "$room/crates/$1/src"
}
