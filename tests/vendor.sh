#!/bin/sh
# Vendors a library into an empty workspace, and runs a caller there, with no proof.
#
# usage, at the top of the repository: sh tests/vendor.sh
set -eu
mine=$(mktemp -d)
trap 'rm -rf "$mine"' EXIT

fail() {
    echo "tests/vendor.sh: $1" >&2
    exit 1
}

sh vendor.sh "$mine" line_reader > /dev/null
first=$(cat "$mine/crates.txt")
sh vendor.sh "$mine" line_reader > /dev/null
[ "$first" = "$(cat "$mine/crates.txt")" ] || fail 'to vendor again changes crates.txt'
if find "$mine" -name must-fail -o -name out | grep -q .; then fail 'it copies wrong edits, or what was built'; fi
if sh vendor.sh "$mine" line_readers 2> /dev/null; then fail 'it takes a name that it does not know'; fi
echo '//' >> "$mine/crates/line_reader/src/lib.rt"
if sh vendor.sh "$mine" chunked line_reader 2> /dev/null; then fail 'it says nothing of what differs'; fi
[ ! -e "$mine/crates/chunked" ] || fail 'it copies a part where something differs'
cp crates/line_reader/src/lib.rt "$mine/crates/line_reader/src/lib.rt"

mkdir -p "$mine/crates/mine/src" "$mine/crates/mine/specs"
touch "$mine/crates/mine/specs/Lib.antt"
echo 'mine: line_reader buffer_redux' >> "$mine/crates.txt"
cat > "$mine/crates/mine/src/main.rt" << 'END'
//! Prints how many bytes each line of standard input has.
#![tactic(auto)]

use buffer_redux::tell::Told;
use line_reader::LineReader;
use std::io;

fn main(rt: HostRuntime) -> io::Result<()> {
    let mut lines = LineReader::new(rt.alloc(), Told::new(rt.stdin()), 80)?;
    for _line in 0..u64::MAX {
        match lines.next() {
            Ok(Some(line)) => println!(rt; "{}", line.len())?,
            Ok(None) => break,
            Err(e) => return Err(io::Error::from(e)),
        }
    }
    Ok(())
}
END
said=$(cd "$mine/crates/mine" && printf 'one\n\nthree' | rt try 2> "$mine/told") || {
    cat "$mine/told" >&2
    fail 'the caller does not run'
}
[ "$said" = "$(printf '3\n0\n5')" ] || fail "the caller prints: $said"
echo 'a library is vendored, and called'
