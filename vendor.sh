#!/bin/sh
# Copies libraries of this repository, and all that they stand on, into a workspace of yours.
#
# usage: sh vendor.sh WORKSPACE LIBRARY ..
#
# WORKSPACE/crates gets a folder for each, without its wrong edits and what was built, and WORKSPACE/crates.txt a line.
# Libraries of the kit stay where they are. What is there already and the same is left; where something differs nothing is
# copied at all. The status is 0 only if all of them are there then.
set -eu
top=$(cd "$(dirname "$0")" && pwd)

fail() {
    echo "vendor.sh: $1" >&2
    exit 1
}

# A library's line of crates.txt; nothing where it has none.
line_of() { sed -n "/^$1:/p" "$2"; }

[ $# -ge 2 ] || fail 'usage: sh vendor.sh WORKSPACE LIBRARY ..'
mine=$1
shift

# All that is wanted, each once and behind what it stands on.
wanted=
want() {
    case " $wanted " in *" $1 "*) return ;; esac
    for below in $(line_of "$1" "$top/crates.txt" | cut -d: -f2); do
        if [ -n "$(line_of "$below" "$top/crates.txt")" ]; then want "$below"; fi
    done
    wanted="$wanted $1"
}
for name; do
    case $name in *[!a-z0-9_]* | '') fail "no library is called '$name'" ;; esac
    if [ ! -f "$top/crates/$name/src/lib.rt" ] || [ -z "$(line_of "$name" "$top/crates.txt")" ]; then
        fail "no library is called '$name'"
    fi
    want "$name"
done

for name in $wanted; do
    if [ -e "$mine/crates/$name" ]; then
        diff -r -x must-fail -x out "$top/crates/$name" "$mine/crates/$name" > /dev/null \
            || fail "$mine/crates/$name differs from what would be copied"
    fi
    if [ -f "$mine/crates.txt" ]; then
        there=$(line_of "$name" "$mine/crates.txt")
        [ -z "$there" ] || [ "$there" = "$(line_of "$name" "$top/crates.txt")" ] \
            || fail "$mine/crates.txt has another line for $name"
    fi
done

mkdir -p "$mine/crates"
touch "$mine/crates.txt"
for name in $wanted; do
    if [ ! -e "$mine/crates/$name" ]; then
        mkdir "$mine/crates/$name"
        for part in "$top/crates/$name"/*; do
            case ${part##*/} in
                must-fail | out) ;;
                *) cp -R "$part" "$mine/crates/$name/" ;;
            esac
        done
    fi
    if [ -z "$(line_of "$name" "$mine/crates.txt")" ]; then line_of "$name" "$top/crates.txt" >> "$mine/crates.txt"; fi
done
echo "vendored:$wanted"
