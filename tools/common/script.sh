# shellcheck shell=bash
# What the scripts in bash share; each reads this first. With --help its header is printed, and it ends. It has the top of the
# repository in `root` then, and a folder of its own in `work`, which is removed at its end.
if [ "${1:-}" = --help ]; then
    sed -n '2,/^[^#]/{s/^# \{0,1\}//p}' "$0"
    exit 0
fi
root=$(cd "$(dirname "${BASH_SOURCE[0]}")/../.." && pwd)
work=$(mktemp -d)
trap 'rm -rf "$work"' EXIT

# built NAME: where a program lies that `rt ci` leaves, or `rt run` in its crate
built() {
    echo "$root/crates/$1/out/$1"
}

# proved CRATE COMMAND..: has rt prove a crate and run it, and prints what it said if that fails
proved() {
    (cd "$root/crates/$1" && rt "${@:2}") >"$work/log" 2>&1 || { cat "$work/log"; exit 1; }
}
