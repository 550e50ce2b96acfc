# sh bench/table.sh
#
# Proves and builds crates/bench, builds bench/std.rs, and prints nine tables in Markdown. The first says how many instructions
# each case takes for a byte that goes over, as callgrind counts them, whatever else the machine does; the second the same
# where a policy looks ahead, for when a ring pays; the third where lines are read, the fourth frames, the fifth chunked bodies,
# the sixth heads of requests, the seventh calls of std's types, the eighth small writes, a call, the ninth parts of multipart
# bodies. It needs valgrind; the columns of Rust's std need rustc. A case is one line of `cases` below; one of a new shape is a
# function in crates/bench/src/cases.rt and one in bench/std.rs too. `sh bench/table.sh pays` prints the second table alone,
# `lines` in its place the third, `frames` the fourth, `bodies` the fifth, `heads` the sixth, `std` the seventh, `writes` the
# eighth, `parts` the ninth.
set -eu

cases='read in pieces of 64|read 8192 64 8388608
read in pieces of 4096|read 8192 4096 8388608
read a byte a call|byte 8192 1 1048576
read_exact of 8|exact 8192 8 8388608
fill 16384, consume 100|fill 16384 100 8388608
the same under MinBuffered(4096)|look 16384 100 8388608
write! of 21|format 8192 21 2097152
write! of 21 to a LineWriter|format_lines 8192 21 2097152
write lines of 80|lines 8192 80 8388608
copy through 8192 and 8192|copy 8192 8192 8388608
copy through 8192 and 16384|copy 8192 16384 8388608
copy_buf through 8192 and 8192|copy_buf 8192 8192 8388608
Unbuffer with 1 MiB left, pieces of 64|unbuffer 1048576 64 1048576
grow from 4096 to 1 MiB by 4096|grow 4096 4096 1048576'

# How many bytes a call writes, through 8192.
writes='1
8
16
32
64
100
1000'

# The capacity, and how many bytes a read gives at most. 4096 bytes are looked ahead by, and 100 consumed at a time.
pays='4096 4096
8192 100
8192 512
12288 512
16384 512
65536 512'

# How long the lines are with their ends, how many bytes a read gives at most, and how many go over.
texts='80 8192 8388608
80 512 8388608
10 8192 8388608
65536 100 8388608'

# How long the payloads of frames are, through 8192 bytes.
payloads='64
1000'

# How long the chunks of bodies are, through 8192 bytes, and into 4096 or out of as many as a chunk has.
chunks='64
1000
65536'

# How long the texts of parts are, and through how many bytes.
forms='8388608 8192
8388608 65536
100 8192'

# How long the heads of requests are, and how many bytes a read gives at most.
heads='2000 1
4000 1
8000 1
8000 100
8000 8192'

# Calls of std's types through 8192 bytes: lines, single bytes, and turns that begin with a fill and go on by 64.
calls='read_until, lines of 80|read_until 80 8388608
read_until, lines of 10|read_until 10 8388608
skip_until, lines of 80|skip_until 80 8388608
skip_until, lines of 10|skip_until 10 8388608
read_line, lines of 80|read_line 80 8388608
read_line, lines of 10|read_line 10 8388608
lines, of 80|lines_of 80 8388608
split, lines of 80|split 80 8388608
bytes, or read_byte|bytes 1 1048576
a fill and seek_relative, a turn|onward 64 8388608
a fill, stream_position and consume, a turn|positions 64 8388608
a peek of 8 and consume, a turn|peek 64 8388608
write_all of a byte|write_bytes 1 1048576
write! of 21 to a writer that is named|own_format 21 2097152
the same to a LineWriter|own_format_lines 21 2097152'

here=$(cd "$(dirname "$0")" && pwd)
if ! command -v valgrind > /dev/null; then
    echo "bench: valgrind is missing, and nothing can be counted without it" >&2
    exit 1
fi
scratch=$(mktemp -d)
trap 'rm -rf "$scratch"' EXIT
(cd "$here/../crates/bench" && rt run > "$scratch/built" 2>&1) || {
    cat "$scratch/built" >&2
    exit 1
}
bench=$here/../crates/bench/out/bench
rust=
if command -v rustc > /dev/null; then
    rustc -C opt-level=3 -C target-cpu=x86-64-v2 -o "$scratch/std" "$here/std.rs"
    rust=$scratch/std
else
    echo "bench: rustc is missing, so the column of Rust's std is empty" >&2
fi

# Instructions a byte of one program with its words.
count() {
    over=$(valgrind --tool=callgrind --callgrind-out-file=/dev/null '--toggle-collect=*measured*' "$@" 1 2> "$scratch/counted")
    if [ "$over" = 0 ]; then
        echo '–'
    else
        sed -n 's/.*Collected : //p' "$scratch/counted" | awk -v over="$over" '{ printf "%.3f\n", $1 / over }'
    fi
}

# When a ring pays: MinBuffered(4096) over a stream that gives few bytes a read.
print_pays() {
    echo '| Capacity, bytes a read | plain | ring |'
    echo '|---|---|---|'
    echo "$pays" | while read -r capacity most; do
        row="| $capacity, $most |"
        for kind in plain ring; do
            row="$row $(count "$bench" packets "$kind" "$capacity" "$most" 8388608) |"
        done
        echo "$row"
    done
}

# Lines that are lent, and those that std copies.
print_lines() {
    echo "| Lines of, bytes a read | next | next_trimmed | the kit's read_until | the kit's lines" \
        "| Rust's read_until | Rust's lines |"
    echo '|---|---|---|---|---|---|---|'
    echo "$texts" | while read -r length most total; do
        row="| $length, $most |"
        for kind in plain std; do
            for shape in next next_trimmed; do
                row="$row $(count "$bench" "$shape" "$kind" "$length" "$most" "$total") |"
            done
        done
        for shape in next next_trimmed; do
            if [ -n "$rust" ]; then
                row="$row $(count "$rust" "$shape" "$length" "$most" "$total") |"
            else
                row="$row – |"
            fi
        done
        echo "$row"
    done
}

# Frames that are lent and taken in, and the same by hand over Rust's std.
print_frames() {
    echo "| Payloads of | next | by hand in Rust | write_frame | by hand in Rust |"
    echo '|---|---|---|---|---|'
    echo "$payloads" | while read -r length; do
        row="| $length |"
        for shape in frames write_frames; do
            row="$row $(count "$bench" "$shape" plain 8192 "$length" 8388608) |"
            if [ -n "$rust" ]; then
                row="$row $(count "$rust" "$shape" 8192 "$length" 8388608) |"
            else
                row="$row – |"
            fi
        done
        echo "$row"
    done
}

# Payload of bodies, the same by hand over Rust's std, and reads of as much that is in no chunks; then the same of writes.
print_bodies() {
    echo "| Chunks of | read_payload | by hand in Rust | read, without chunks | Rust's read" \
        "| write_all | by hand in Rust | write_all, without chunks | Rust's write_all |"
    echo '|---|---|---|---|---|---|---|---|---|'
    echo "$chunks" | while read -r length; do
        row="| $length |"
        for words in "bodies 8192 $length" 'read 8192 4096' "write_bodies 8192 $length" "write_all 8192 $length"; do
            # The words are split on purpose.
            set -- $words
            row="$row $(count "$bench" "$1" plain "$2" "$3" 8388608) |"
            if [ -n "$rust" ]; then
                row="$row $(count "$rust" "$@" 8388608) |"
            else
                row="$row – |"
            fi
        done
        echo "$row"
    done
}

# Texts of parts, read into 65536 bytes and lent, and the same by hand over Rust's std.
print_parts() {
    echo "| Texts of, through | read | by hand in Rust | fill | by hand in Rust |"
    echo '|---|---|---|---|---|'
    echo "$forms" | while read -r length capacity; do
        row="| $length, $capacity |"
        for shape in read_parts fill_parts; do
            row="$row $(count "$bench" "$shape" plain "$capacity" "$length" 8388608) |"
            if [ -n "$rust" ]; then
                row="$row $(count "$rust" "$shape" "$capacity" "$length" 8388608) |"
            else
                row="$row – |"
            fi
        done
        echo "$row"
    done
}

# Heads of requests, for a byte of them.
print_heads() {
    echo '| Heads of, bytes a read | step |'
    echo '|---|---|'
    echo "$heads" | while read -r length most; do
        echo "| $length, $most | $(count "$bench" heads plain "$length" "$most" 262144) |"
    done
}

# The calls of std's types.
print_calls() {
    echo "| Instructions for a byte, or a turn | plain | the kit's std | Rust's std |"
    echo '|---|---|---|---|'
    echo "$calls" | while IFS='|' read -r name words; do
        # The words are split on purpose.
        set -- $words
        shape=$1
        shift
        row="| $name | $(count "$bench" "$shape" plain 8192 "$@") | $(count "$bench" "$shape" std 8192 "$@") |"
        if [ -n "$rust" ]; then
            row="$row $(count "$rust" "$shape" 8192 "$@") |"
        else
            row="$row – |"
        fi
        echo "$row"
    done
}

# Writes of few bytes: instructions a call.
print_writes() {
    echo "| Bytes a call | write | write_all | Rust's write | Rust's write_all |"
    echo '|---|---|---|---|---|'
    echo "$writes" | while read -r length; do
        row="| $length |"
        for shape in write write_all; do
            row="$row $(count "$bench" "$shape" plain 8192 "$length" 8388608 | a_call "$length") |"
        done
        for shape in write write_all; do
            if [ -n "$rust" ]; then
                row="$row $(count "$rust" "$shape" 8192 "$length" 8388608 | a_call "$length") |"
            else
                row="$row – |"
            fi
        done
        echo "$row"
    done
}

# A call's instructions, from those of a byte.
a_call() {
    awk -v length_="$1" '{ printf "%.1f\n", $1 * length_ }'
}

case "${1-}" in
    pays) print_pays && exit ;;
    lines) print_lines && exit ;;
    frames) print_frames && exit ;;
    bodies) print_bodies && exit ;;
    heads) print_heads && exit ;;
    std) print_calls && exit ;;
    writes) print_writes && exit ;;
    parts) print_parts && exit ;;
esac

echo "| Instructions a byte | plain | ring | the kit's std | Rust's std |"
echo '|---|---|---|---|---|'
echo "$cases" | while IFS='|' read -r name words; do
    # The words are split on purpose, here and below.
    set -- $words
    shape=$1
    shift
    row="| $name |"
    for kind in plain ring std; do
        row="$row $(count "$bench" "$shape" "$kind" "$@") |"
    done
    if [ -n "$rust" ]; then
        row="$row $(count "$rust" "$shape" "$@") |"
    else
        row="$row – |"
    fi
    echo "$row"
done

echo
print_pays

echo
print_lines

echo
print_frames

echo
print_bodies

echo
print_heads

echo
print_calls

echo
print_writes

echo
print_parts
