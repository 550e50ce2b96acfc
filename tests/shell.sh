# sh tests/shell.sh [built]
#
# What no proof and no test of a crate shows: what the built programs do as a shell runs them, with the words, the input, the
# output, the status and the line on standard error of each run; into a full device, a closed pipe and a closed output, from a
# folder and from a closed input; with reads and writes that move little, fail or are interrupted; and with one allocation after
# another refused, which the status and a line tell, and nothing is written. tests_refused runs for its refusals alone: it makes
# each call that takes memory, and looks at what one leaves.
#
# `built` says that `rt ci` has just built them; else they are proved and built first. It wants a C compiler, for
# tests/system.c. It says how many runs there were, writes nothing into the repository but what rt builds in the folders out/,
# and ends with status 0 only where each run ended well.
set -u
unset RT_BACKEND RT_SECONDS
built=${1-}

cd "$(dirname "$0")/.." || exit 1
scratch=$(mktemp -d) || exit 1
trap 'rm -rf "$scratch"' EXIT
failed=0

wrong() { # what is said of it, a file to show
    echo "shell: $1" >&2
    tail -n 40 "$2" >&2
    failed=1
}

# Of these the runs are: a program by its name, the file of what is built, and how often it ran.
begins() { # its name
    name=$1
    program=$PWD/crates/$name/out/$name
    runs=0
    if [ "$built" = built ] && [ -x "$program" ]; then return 0; fi
    # Unquoted, since these are words.
    (cd "crates/$name" && cat stdin 2> "$scratch/none" | rt run -- $(cat args 2> "$scratch/none")) > "$scratch/built" 2>&1 && return 0
    wrong "$name is not built" "$scratch/built"
    return 1
}

ends() {
    echo "$name: $runs runs as a shell makes them"
}

# How a run ended.
ended() { # what was run, its status, the status wanted, the line wanted on standard error
    if [ "$2" -ne "$3" ]; then wrong "$1: status $2, not $3" "$scratch/err"; fi
    if [ "$(cat "$scratch/err")" != "$4" ]; then wrong "$1: another line" "$scratch/err"; fi
    runs=$((runs + 1))
}

holds() { # what was run, the file that standard output should equal
    cmp -s "$scratch/out" "$2" || wrong "$1: other bytes" "$scratch/err"
}

# A run from file to file.
turns() { # words, the input, the output wanted, the status wanted, the line wanted
    # Unquoted, since these are words.
    "$program" $1 < "$2" > "$scratch/out" 2> "$scratch/err"
    ended "$name $1" $? "${4-0}" "${5-}"
    holds "$name $1" "$3"
}

# The same of texts, as `printf %b` writes them.
gives() { # words, the input, the output wanted, the status wanted, the line wanted
    printf '%b' "$2" > "$scratch/in"
    printf '%b' "$3" > "$scratch/want"
    before=$failed
    failed=0
    turns "$1" "$scratch/in" "$scratch/want" "${4-0}" "${5-}"
    if [ "$failed" -ne 0 ]; then printf '    of %.60s\n' "$2" >&2; fi
    failed=$((before | failed))
}

# Words that ask for nothing that it knows.
refuses() { # its usage, words each
    usage=$1
    shift
    for words in "$@"; do
        turns "$words" "$lines" "$nothing" 2 "usage: $name $usage"
    done
}

# What it says of a stream that failed.
said_of() { # `read` or `write`, the words
    case "$name $2" in
        frames* | bodies* | parts*) echo "$1 failed" ;;
        *) echo 'read or write failed' ;;
    esac
}

# Streams that fail at once, or once more than a pipe holds was written.
faults() { # words, an input of which it writes more than a pipe holds
    fault="$name: $(said_of write "$1")"
    # A device that is always full isn't everywhere.
    if [ -c /dev/full ] && (: > /dev/full) 2> "$scratch/none"; then
        "$program" $1 < "$2" > /dev/full 2> "$scratch/err"
        ended "$name $1 into a full device" $? 1 "$fault"
    fi
    { "$program" $1 < "$2" 2> "$scratch/err"; echo $? > "$scratch/status"; } | :
    ended "$name $1 into a closed pipe" "$(cat "$scratch/status")" 1 "$fault"
    "$program" $1 < "$2" >&- 2> "$scratch/err"
    ended "$name $1 into a closed output" $? 1 "$fault"
    fault="$name: $(said_of read "$1")"
    turns "$1" "$scratch" "$nothing" 1 "$fault"
    "$program" $1 > "$scratch/out" 2> "$scratch/err" <&-
    ended "$name $1 from a closed input" $? 1 "$fault"
    holds "$name $1 from a closed input" "$nothing"
}

# A run whose reads and writes answer as scripts say, in the words of tests/system.c.
answers() { # words, the input, how reads answer, how writes, the output wanted, the status, how often it reads and writes, the line
    printf '%b' "$2" > "$scratch/in"
    printf '%b' "$5" > "$scratch/want"
    : > "$scratch/calls"
    READS=$3 WRITES=$4 CALLS=$scratch/calls LD_PRELOAD=$system \
        "$program" $1 < "$scratch/in" > "$scratch/out" 2> "$scratch/err"
    ended "$name $1 as reads $3, writes $4" $? "$6" "${8:+$name: $8}"
    holds "$name $1 as reads $3, writes $4" "$scratch/want"
    calls="$(grep -c r "$scratch/calls") $(grep -c w "$scratch/calls")"
    if [ "$calls" != "$7" ]; then wrong "$name $1 as reads $3, writes $4: $calls calls, not $7" "$scratch/calls"; fi
}

# The same of rows.
answer() {
    while IFS='|' read -r words input reads writes output status calls line; do
        if [ "$status" -eq 1 ]; then
            if [ -n "$writes" ]; then line=$(said_of write "$words"); else line=$(said_of read "$words"); fi
        fi
        answers "$words" "$input" "$reads" "$writes" "$output" "$status" "$calls" "$line"
    done
}

# A run with one allocation refused. Whether the program came so far.
meets() { # which, words, the input
    rm -f "$scratch/met"
    REFUSE=$1 REFUSED=$scratch/met LD_PRELOAD=$system "$program" $2 < "$3" > "$scratch/out" 2> "$scratch/err"
    status=$?
    [ -e "$scratch/met" ]
}

# One allocation after another refused, until a run meets no refusal. What is refused ends the run, or it makes do without.
refused() { # words, the input, the output wanted
    at=1
    while meets "$at" "$1" "$2"; do
        if [ "$status" -eq 0 ]; then
            ended "$name $1 without allocation $at" 0 0 ''
            holds "$name $1 without allocation $at" "$3"
        else
            ended "$name $1 without allocation $at" "$status" 3 "$name: out of memory"
            holds "$name $1 without allocation $at" "$nothing"
        fi
        at=$((at + 1))
    done
    ended "$name $1" "$status" 0 ''
    holds "$name $1" "$3"
    if [ "$at" -eq 1 ]; then wrong "$name $1: no allocation is refused" "$scratch/err"; fi
}

run_bufcopy() {
    for words in '' ring std 1 64 0000064 'ring 1' 'ring 64' 'std 7' 'ring 1048576'; do
        turns "$words" "$lines" "$lines"
    done
    gives '' 'one\ntwo\n' 'one\ntwo\n'
    gives '' '' ''
    refuses '[std|ring] [CAPACITY]' other Ring 00000064 'std 0' 'ring 1048577' 'std +5' 'ring std' '64 std' '64 64' \
        'ring 64 64' "$no_text"
    # How many bytes it asks for first tells the capacity: of a ring, whole pages.
    for row in '|8192' 'ring|8192' 'std|8192' '64|64' 'std 0000007|7' 'ring 64|4096' '1048576|1048576'; do
        answers "${row%|*}" '' '' '' '' 0 '1 0'
        if [ "$(cat "$scratch/calls")" != "r${row#*|}" ]; then wrong "$name ${row%|*}: another capacity" "$scratch/calls"; fi
    done
    # A plain buffer is sent when it is full, and a ring of 1 has room for all. After a fault nothing is sent. 64 interrupted turns in
    # a row are begun again, as often as a row comes, and the 65th ends the run.
    answer <<'END'
3|abcde|1*||abcde|0|6 2
ring 1|abcde|1*||abcde|0|6 1
2|abcdef|e|||1|1 0
2|abcdef|2 e||ab|1|2 1
2|abcdef|2 2 e||abcd|1|3 2
2|abcdef|2 2 2 e||abcdef|1|4 3
2|abcdef||e||1|1 1
2|abcdef||a e|ab|1|2 2
2|abcdef||a a e|abcd|1|3 3
1|abc||0||1|1 1
2|abc|i64||abc|0|67 2
2|abc|i64 2 i64||abc|0|131 2
2|abc|i65|||1|65 0
2|abc|2 i65||ab|1|66 1
2|abc||i99||1|1 65
END
    faults '' "$lines"
    for words in '' ring; do
        refused "$words" "$lines" "$lines"
    done
}

run_replay() {
    refuses '< LINES' lines "$no_text"
    gives '' '' ''
    gives '' '\n' 'line 1: not four parts\n' 2
    gives '' 'a\0377b\n' 'line 1: not text\n' 2
    gives '' 'reader bag 4 std | 3 | - | F\n' 'line 1: `reader bag 4 std` is no buffered stream\n' 2
    gives '' 'writer plain 4 min 3 | 0 | - | L\n' 'line 1: `writer plain 4 min 3` is no buffered stream\n' 2
    gives '' 'reader plain 4 std | +3 | - | F\n' 'line 1: `+3` is no number of bytes for a source\n' 2
    gives '' 'writer ring 4 std | 3 | - | L\n' 'line 1: `3` is no number of bytes for a source\n' 2
    gives '' 'reader plain 4 std | 3 | a e:Rust | F\n' 'line 1: `e:Rust` is no answer of a stream\n' 2
    gives '' 'reader plain 4 std | 3 | - | F W3\n' 'line 1: `W3` is no call\n' 2
    gives '' 'writer plain 4 std | 0 | - | w0\n' 'line 1: `w0` is no call\n' 2
    gives '' 'writer plain 4 std | 0 | - | w0G\n' 'line 1: `w0G` is no call\n' 2
    gives '' 'writer plain 4 std | 0 | - | U W1\n' 'line 1: `U` is no call\n' 2
    gives '' 'buffer plain 4 std | 3 | - | I\n' 'line 1: `buffer plain 4 std` is no buffered stream\n' 2
    gives '' 'buffer plain 4 | 3 | - | F\n' 'line 1: `F` is no call\n' 2
    gives '' 'sweep buffer plain 4 | 3 | - | I\n' "line 1: a bare buffer isn't swept\n" 2
    gives '' 'reader plain 4 std | 3 | - | R18446744073709551615\n' 'line 1: not enough memory\n' 2
    gives '' 'sweep\n' 'line 1: not four parts\n' 2
    gives '' 'sweep lossy reader plain 4 std | 3 | - | F\n' 'line 1: `lossy reader plain 4 std` is no buffered stream\n' 2
    gives '' '?\nreader plain 4 std | 3 | - | F\n' 'line 1: not four parts\nS3 | 3 1 4 000102 | 4\n' 2
    # What it says of a hundred thousand lines is more than a pipe holds.
    seq 100000 > "$scratch/many"
    faults '' "$scratch/many"
}

run_frames() {
    # A text, its frames, and the text of these.
    for row in '||' '\n|\0000\0000|\n' 'abc\n|\0000\0003abc|abc\n' 'abc|\0000\0003abc|abc\n' \
        'a\n\nbcd\n|\0000\0001a\0000\0000\0000\0003bcd|a\n\nbcd\n' 'a\r\n\0000\n|\0000\0002a\r\0000\0001\0000|a\r\n\0000\n' \
        "$most\\n|\\0377\\0377$most|$most\\n"; do
        text=${row%%|*}
        row=${row#*|}
        gives pack "$text" "${row%%|*}"
        gives unpack "${row%%|*}" "${row#*|}"
    done
    long='frames: a line or a frame has more than 65535 bytes'
    gives pack "ab\\n${most}A\\nc\\n" '\0000\0002ab' 4 "$long"
    gives pack "${most}A" '' 4 "$long"
    cut='frames: the input ends within a frame'
    gives unpack '\0000\0002ab\0000\0002c' 'ab\n' 5 "$cut"
    gives unpack '\0000\0002ab\0000' 'ab\n' 5 "$cut"
    gives unpack '\0000' '' 5 "$cut"
    # Of an input that ended no more is asked. What came whole is sent before more is asked for, and after a fault nothing is.
    answer <<'END'
pack|a\n\nbc\n|||\0000\0001a\0000\0000\0000\0002bc|0|2 1
pack|a\nbc|1*|1*|\0000\0001a\0000\0002bc|0|5 7
pack|ab\n|e|||1|1 0
pack|ab\n|2 e|||1|2 0
pack|ab\n|2 2 e||\0000\0002ab|1|3 1
pack|a\nbc\nd|2 3 1 e||\0000\0001a\0000\0002bc|1|4 2
pack|ab\n||e||1|1 1
pack|ab\n||0||1|1 1
pack|ab\n|i64 2 i64||\0000\0002ab|0|131 1
pack|ab\n|2 i65|||1|66 0
pack|ab\n||i65||1|1 65
unpack|\0000\0001a\0000\0000|||a\n\n|0|2 1
unpack|\0000\0001a\0000\0000|1*|1*|a\n\n|0|6 3
unpack|\0000\0002ab\0000|1*||ab\n|5|6 1|the input ends within a frame
unpack|\0000\0002ab|e|||1|1 0
unpack|\0000\0002ab|2 2 e||ab\n|1|3 1
unpack|\0000\0001a\0000\0002bc\0000|3 4 1 e||a\nbc\n|1|4 2
unpack|\0000\0002ab||e||1|1 1
unpack|\0000\0002ab||0||1|1 1
unpack|\0000\0002ab|i64 2 i64||ab\n|0|131 1
unpack|\0000\0002ab|2 i65|||1|66 0
unpack|\0000\0002ab||i65||1|1 65
END
    # What comes in one read goes out in one write, and there is one flush for it.
    many=$(awk 'BEGIN { for (i = 0; i < 400; i++) printf "%s", "ab\\n" }')
    framed=$(awk 'BEGIN { for (i = 0; i < 400; i++) printf "%s", "\\0000\\0002ab" }')
    answers pack "$many" '' '' "$framed" 0 '2 1'
    answers unpack "$framed" '' '' "$many" 0 '2 1'
    # The byte that makes the line too long is the last that is asked for.
    answers pack "ab\\n${most}A\\nc\\n" '1*' '' '\0000\0002ab' 4 '65539 1' "${long#frames: }"
    refuses 'pack|unpack' '' Pack packs 'pack unpack' "$no_text"
    faults pack "$lines"
    "$program" pack < "$lines" > "$scratch/frames"
    turns unpack "$scratch/frames" "$lines"
    faults unpack "$scratch/frames"
    printf '\000\002ab' > "$scratch/frame"
    printf 'ab\n' > "$scratch/line"
    refused pack "$scratch/line" "$scratch/frame"
    refused unpack "$scratch/frame" "$scratch/line"
}

# Each byte between two parts of a body, which is taken, is cut short, or is refused.
each_byte() { # what stands in front, what behind, which bytes are taken, after which the body has no end
    byte=0
    while [ "$byte" -lt 256 ]; do
        want=4
        for range in $3; do
            if [ "$byte" -ge "${range%-*}" ] && [ "$byte" -le "${range#*-}" ]; then want=0; fi
        done
        for range in $4; do
            if [ "$byte" -ge "${range%-*}" ] && [ "$byte" -le "${range#*-}" ]; then want=5; fi
        done
        printf '%b' "$1\\0$((byte / 64))$((byte / 8 % 8))$((byte % 8))$2" > "$scratch/in"
        "$program" decode < "$scratch/in" > "$scratch/out" 2> "$scratch/err"
        came=$?
        if [ "$came" -ne "$want" ]; then wrong "bodies of $1, byte $byte, $2: status $came" "$scratch/err"; fi
        runs=$((runs + 1))
        byte=$((byte + 1))
    done
}

run_bodies() {
    # What was decoded of what is wrong, and behind how many bytes of a body.
    gives decode '4\r\nWiki\r\n7\r\npedia i\r\nB\r\nn \r\nchunks.\r\n0\r\n\r\n' 'Wikipedia in \r\nchunks.'
    gives decode '0A ;x="y"\r\n0123456789\r\n00\r\nA: b\r\nC:\r\n\r\n' 0123456789
    gives decode '1\r\n\n\r\n1\r\n\r\r\n0\r\n\r\n' '\n\r'
    while IFS='|' read -r input output status line; do
        gives decode "$input" "$output" "$status" "bodies: $line"
    done <<'END'
||5|the input ends after 0 bytes of a body
5\r\nhel|hel|5|the input ends after 6 bytes of a body
2\r\nab\r\n0\r\n\r|ab|5|the input ends after 11 bytes of a body
2\r\nab\r\n0\r\n\r\nGET|ab|6|the input goes on behind a body of 12 bytes
\r\n||4|a chunk without a size, behind 0 bytes of a body
hello||4|a chunk without a size, behind 0 bytes of a body
2\r\nab\r\n2 x\r\n|ab|4|a wrong byte in the line of a size, behind 9 bytes of a body
4000000000000000\r\n||4|a size of 2^62 or more, behind 15 bytes of a body
1\r\nab\r\n|a|4|a chunk is longer than its size, behind 4 bytes of a body
1\r\na\r\r\n|a|4|a CR without an LF, behind 5 bytes of a body
1\na||4|an LF without a CR, behind 1 bytes of a body
END
    # Each form of an extension and of a line of the trailers, in the words of RFC 9112 and RFC 9110.
    while IFS= read -r extension; do
        gives decode "1$extension\\r\\na\\r\\n000$extension\\r\\n\\r\\n" a
    done <<'END'
;a
;!#$%&'*+-.^_`|~09AZaz
 \t;\t a
;a=b;c;d=e
;a \t=\t b
 ; a = b ; c
;a=""
;a="b" ;c
;a="\t !#[]~;=\0200\0377"
;a="\\"\\\\\\ \\\t\\a\\\0377";b
END
    while IFS= read -r trailer; do
        gives decode "0\\r\\n$trailer\\r\\nb:\\r\\n$trailer\\r\\n\\r\\n" ''
    done <<'END'
a:
!#$%&'*+-.^_`|~09AZaz:
a:b
a:\t b \t:\t"\\~\0200\0377
END
    # Each way to break one, and how many bytes are right.
    while IFS='|' read -r right line; do
        gives decode "1$line\\r\\na\\r\\n0\\r\\n\\r\\n" '' 4 \
            "bodies: a wrong byte in the line of a size, behind $right bytes of a body"
    done <<'END'
1|,
1|=a
2|\0040
2|\t
2| =
2|;
3|;\0040
2|;;a
2|;"a"
2|;=a
2|;\0200
3|;a/b
3|;a"b"
4|;a\0040
4|;a b
4|;a=
5|;a=\0040
4|;a=;b
4|;a==b
6|;a=b\0040
5|;a=b=c
5|;a=b"c"
6|;a="b
5|;a="\001"
5|;a="\0177"
6|;a="\\
6|;a="\\\0177"
6|;a=""b
7|;a=""\0040
END
    while IFS='|' read -r right line; do
        gives decode "0\\r\\n$line\\r\\n\\r\\n" '' 4 \
            "bodies: a wrong byte in a line of the trailers, behind $right bytes of a body"
    done <<'END'
3| a: b
3|\ta: b
3|: b
3|\0200: b
4|a
4|a : b
4|a/b: c
6|a: \0000
5|a:\0177
7|a:\r\n b
END
    # Each byte at each place where another may stand, and in the place of each byte of a short body.
    while IFS='|' read -r front behind allowed cut; do
        each_byte "$front" "$behind" "$allowed" "$cut"
    done <<'END'
|\r\na\r\n0\r\n\r\n|49|54 56-57 65-70 97-102
1|\r\na\r\n0\r\n\r\n||48-57 65-70 97-102
1|\na\r\n0\r\n\r\n|13
1\r|a\r\n0\r\n\r\n|10
1\r\n|\r\n0\r\n\r\n|0-255
1\r\na|\n0\r\n\r\n|13
1\r\na\r|0\r\n\r\n|10
1\r\na\r\n|\r\n\r\n|48|50-57 65-70 97-102
0|a\r\n\r\n|59|48-57 65-70 97-102
0;a|\n\r\n|13
0;a\r|\r\n|10
0\r\na|b\r\n\r\n|58
0\r\na:b|\n\r\n|13
0\r\na:b\r|\r\n|10
0\r\na:b\r\n|\n|13
0\r\na:b\r\n\r||10
0;|\r\n\r\n|33 35-39 42-43 45-46 48-57 65-90 94-122 124 126
0;|a\r\n\r\n|9 32-33 35-39 42-43 45-46 48-57 65-90 94-122 124 126
0;a|b\r\n\r\n|33 35-39 42-43 45-46 48-57 59 61 65-90 94-122 124 126
0;a |b\r\n\r\n|59 61
0;a=|\r\n\r\n|33 35-39 42-43 45-46 48-57 65-90 94-122 124 126
0;a=|b"\r\n\r\n|34
0;a=b|;c\r\n\r\n|9 32-33 35-39 42-43 45-46 48-57 65-90 94-122 124 126
0;a="|"\r\n\r\n|9 32-33 35-91 93-126 128-255
0;a="\\|"\r\n\r\n|9 32-126 128-255
0;a="b"|c\r\n\r\n|59
0;a="b"|\r\n\r\n|
0\r\n|:\r\n\r\n|33 35-39 42-43 45-46 48-57 65-90 94-122 124 126
0\r\na|:\r\n\r\n|33 35-39 42-43 45-46 48-58 65-90 94-122 124 126
0\r\na:|\r\n\r\n|9 32-126 128-255
END
    # Each cut.
    printf '2 ; a = "\\\\b";c\r\nab\r\n0;d\r\na: b\r\n\r\n' > "$scratch/whole"
    printf 'ab' > "$scratch/ab"
    turns decode "$scratch/whole" "$scratch/ab"
    right=0
    while [ "$right" -lt "$(wc -c < "$scratch/whole")" ]; do
        head -c "$right" "$scratch/whole" > "$scratch/cut"
        took=$((right < 18 ? 0 : right < 20 ? right - 17 : 2))
        head -c "$took" "$scratch/ab" > "$scratch/part"
        turns decode "$scratch/cut" "$scratch/part" 5 "bodies: the input ends after $right bytes of a body"
        right=$((right + 1))
    done
    gives decode "5;$most" '' 4 'bodies: the line of a size is too long, behind 8192 bytes of a body'
    gives decode "0\\r\\nA: $most" '' 4 'bodies: the trailers are too long, behind 65539 bytes of a body'
    # A payload, and its body.
    while IFS='|' read -r payload body; do
        gives encode "$payload" "$body"
        gives decode "$body" "$payload"
    done <<'END'
|0\r\n\r\n
hello|5\r\nhello\r\n0\r\n\r\n
0\r\n\r\n|5\r\n0\r\n\r\n\r\n0\r\n\r\n
0123456789abcdef|10\r\n0123456789abcdef\r\n0\r\n\r\n
END
    # A read gives at most 8192 bytes, so what is longer is cut. Chunks may be longer than any buffer.
    payload=$scratch/payload
    head -c 20000 "$lines" > "$payload"
    {
        printf '2000\r\n' && head -c 8192 "$payload" && printf '\r\n2000\r\n'
        tail -c +8193 "$payload" | head -c 8192 && printf '\r\ne20\r\n'
        tail -c +16385 "$payload" && printf '\r\n0\r\n\r\n'
    } > "$scratch/body"
    turns encode "$payload" "$scratch/body"
    turns decode "$scratch/body" "$payload"
    head -c 100000 "$lines" > "$payload"
    { printf '186A0\r\n' && cat "$payload" && printf '\r\n0\r\n\r\n'; } > "$scratch/body"
    turns decode "$scratch/body" "$payload"
    # What one read gave is one chunk. What came whole is sent before more is asked for, and also before it is asked whether
    # something follows a body. After a fault nothing is sent.
    answer <<'END'
decode|3\r\nabc\r\n0\r\n\r\n|||abc|0|2 1
decode|3\r\nabc\r\n0\r\n\r\n|1*|1*|abc|0|14 3
decode|3\r\nab|1*||ab|5|6 2|the input ends after 5 bytes of a body
decode|3\r\nabc\r\n0\r\n\r\n|e|||1|1 0
decode|3\r\nabc\r\n0\r\n\r\n|2 2 e||a|1|3 1
decode|1\r\na\r\n2\r\nbc\r\n0\r\n\r\n|8 e||a|1|2 1
decode|3\r\nabc\r\n0\r\n\r\n|a e||abc|1|2 1
decode|3\r\nabc\r\n0\r\n\r\n||e||1|1 1
decode|3\r\nabc\r\n0\r\n\r\n||0||1|1 1
decode|3\r\nabc\r\n0\r\n\r\n||i65||1|1 65
decode|3\r\nabc\r\n0\r\n\r\n|i64 a i64||abc|0|130 1
decode|3\r\nabc\r\n0\r\n\r\n|i65|||1|65 0
decode|3\r\nabc\r\n0\r\n\r\n|a i65||abc|1|66 1
encode|abc|||3\r\nabc\r\n0\r\n\r\n|0|2 2
encode|abc|2||2\r\nab\r\n1\r\nc\r\n0\r\n\r\n|0|3 3
encode|\r\n|1*|2|1\r\n\r\r\n1\r\n\n\r\n0\r\n\r\n|0|3 4
encode|abc|e|||1|1 0
encode|abc|a e||3\r\nabc\r\n|1|2 1
encode|abc|1 1 e||1\r\na\r\n1\r\nb\r\n|1|3 2
encode|abc|i64 a i64||3\r\nabc\r\n0\r\n\r\n|0|130 2
encode|abc|i65|||1|65 0
encode|abc|a i65||3\r\nabc\r\n|1|66 1
encode|abc||e||1|1 1
encode|abc||a e|3\r\nabc\r\n|1|2 2
encode|abc||0||1|1 1
encode|abc||i65||1|1 65
END
    refuses 'decode|encode' '' encoder 'encode decode' "$no_text"
    faults encode "$lines"
    faults decode "$scratch/body"
    printf hello > "$payload"
    printf '5\r\nhello\r\n0\r\n\r\n' > "$scratch/body"
    refused encode "$payload" "$scratch/body"
    refused decode "$scratch/body" "$payload"
}

# Bodies of others' encoders are those of tests/parts.py.
run_parts() {
    part='--b\r\nContent-Disposition: form-data; name="n"\r\n\r\nhello\r\n'
    line='n\t-\t-\t5\n'
    answer <<END
list b|$part--b--|||$line|0|1 1
list b|$part$part--b--GET|64*||$line$line|0|2 1
list b|$part--b\r\n\r\nhi|||$line|5|2 1|the input ends within the body
list b|$part--b\r\n\r\nhi|70 e||$line|1|2 1
list b|$part--b--||e||1|1 1
get b n|$part$part--b--|64*||hello|0|1 1
get b n|--b\r\n\r\n\r\n$part--b--|||hello|0|1 1
get b n|--b\r\n\r\nhello\r\n--b--||||6|1 0|no part has this name
get b n|--b\r\nContent-Disposition: form-data; name="n"\r\n\r\nhe|||he|5|2 1|the input ends within the body
END
    refuses 'list BOUNDARY|get BOUNDARY NAME' list 'list b n' 'get b' 'get b n n' "list $(printf %071d 0)" "list $(printf 'a\rb')" "$no_text"
    { printf -- '--b\r\nContent-Disposition: form-data; name="n"\r\n\r\n'; cat "$lines"; printf '\r\n--b--'; } > "$scratch/body"
    turns 'get b n' "$scratch/body" "$lines"
    faults 'get b n' "$scratch/body"
    refused 'get b n' "$scratch/body" "$lines"
}

# A request that stands within a bulk string is none, whichever read within that string is interrupted or fails.
run_resp_server() {
    turns '' crates/resp_server/stdin crates/resp_server/stdout
    within="$(printf %02000d 0)\\r\\nPING\\r\\n"
    command="*2\\r\\n\$4\\r\\nECHO\\r\\n\$2008\\r\\n$within\\r\\nPING\\r\\n"
    replies="\$2008\\r\\n$within\\r\\n+PONG\\r\\n"
    reads=
    for at in 1 2 3 4 5; do
        answers '' "$command" "$reads i1 512*" '' "$replies" 0 '6 1'
        # Behind the last request it is asked only once the replies are written.
        if [ "$at" -eq 5 ]; then said=$replies; else said=; fi
        printf '%b' "$command" > "$scratch/in"
        printf '%b' "$said" > "$scratch/want"
        READS="$reads e" WRITES="" CALLS=$scratch/calls LD_PRELOAD=$system "$program" < "$scratch/in" > "$scratch/out" 2> "$scratch/err"
        ended "$name as read $at fails" $? 1 'Error: Os { code: 5, kind: Uncategorized, message: "Input/output error" }'
        holds "$name as read $at fails" "$scratch/want"
        reads="$reads 512"
    done
    # An input that ends within a request, or within a part of one, is told.
    cut='the input ends within a request'
    answers '' '*2\r\n$3\r\nGET\r\n' '512*' '' '' 5 '2 0' "$cut"
    answers '' 'PING\r\n*1\r\n$4\r\nPI' '512*' '' '+PONG\r\n' 5 '2 1' "$cut"
    answers '' 'PING\r\nPIN' '512*' '' '+PONG\r\n' 5 '2 1' "$cut"
    # What a send that failed left isn't offered again at the end.
    printf '%b' 'PING\r\n' > "$scratch/in"
    READS='' WRITES=e CALLS=$scratch/calls LD_PRELOAD=$system "$program" < "$scratch/in" > "$scratch/out" 2> "$scratch/err"
    ended "$name as a write fails" $? 1 'Error: Os { code: 5, kind: Uncategorized, message: "Input/output error" }'
    holds "$name as a write fails" "$nothing"
}

# Its errors are told by the system's own words; a stream that doesn't wait is refused by such a line too.
run_requests() {
    turns '' crates/requests/stdin crates/requests/stdout
    request='GET / HTTP/1.1\r\nHost: a\r\n\r\n'
    head='HTTP/1.1 200 OK\r\nContent-Length: 21\r\nConnection: keep-alive\r\n\r\n'
    said="$head                   0\n"
    gives '' "$request" "$said"
    # What is there is answered by one write, before the stream is asked for more, and so is what comes then.
    answers '' "$request$request$request" '28 i1 512*' '' "$said$said$said" 0 '4 2'
    answers '' "$request$request" '512*' '' "$said$said" 0 '2 1'
    # A read that fails ends it, with all that came answered; where a write fails nothing more is asked for.
    printf '%b' "$request$request" > "$scratch/in"
    printf '%b' "$said" > "$scratch/want"
    READS='28 e' WRITES='' CALLS=$scratch/calls LD_PRELOAD=$system "$program" < "$scratch/in" > "$scratch/out" 2> "$scratch/err"
    ended "$name as a read fails" $? 1 'Error: Os { code: 5, kind: Uncategorized, message: "Input/output error" }'
    holds "$name as a read fails" "$scratch/want"
    : > "$scratch/calls"
    READS='28*' WRITES='e' CALLS=$scratch/calls LD_PRELOAD=$system "$program" < "$scratch/in" > "$scratch/out" 2> "$scratch/err"
    ended "$name as a write fails" $? 1 'Error: Os { code: 5, kind: Uncategorized, message: "Input/output error" }'
    if [ "$(grep -c r "$scratch/calls")" -ne 1 ]; then wrong "$name as a write fails: it asks again" "$scratch/calls"; fi
    holds "$name as a write fails" "$nothing"
    if [ -c /dev/full ] && (: > /dev/full) 2> "$scratch/none"; then
        "$program" < "$scratch/in" > /dev/full 2> "$scratch/err"
        ended "$name into a full device" $? 1 \
            'Error: Os { code: 28, kind: StorageFull, message: "No space left on device" }'
    fi
    bad='Error: Os { code: 9, kind: Uncategorized, message: "Bad file descriptor" }'
    "$program" < "$scratch/in" >&- 2> "$scratch/err"
    ended "$name into a closed output" $? 1 "$bad"
    "$program" > "$scratch/out" 2> "$scratch/err" <&-
    ended "$name from a closed input" $? 1 "$bad"
    holds "$name from a closed input" "$nothing"
    if command -v python3 > "$scratch/none"; then
        python3 -c 'import os, sys
r, w = os.pipe()
os.set_blocking(r, False)
os.set_inheritable(w, True)
os.dup2(r, 0)
os.execv(sys.argv[1], [sys.argv[1]])' "$program" > "$scratch/out" 2> "$scratch/err"
        ended "$name from an input that does not wait" $? 1 \
            'Error: Os { code: 11, kind: WouldBlock, message: "Resource temporarily unavailable" }'
    fi
}

# It says itself whether all is as it should be. It meets each of the first refusals; the two behind are of more than any machine
# has, which is refused anyway.
run_tests_refused() {
    at=1
    met=0
    while meets "$at" '' "$nothing"; do
        case $(cat "$scratch/out") in
            refused) met=$((met + 1)) ;;
            'no refusal') ;;
            *) wrong "$name without allocation $at" "$scratch/out" ;;
        esac
        if [ "$(cat "$scratch/out")" = refused ] && [ "$met" -ne "$at" ]; then
            wrong "$name: a refusal before allocation $at was lost" "$scratch/out"
        fi
        ended "$name without allocation $at" "$status" 0 ''
        at=$((at + 1))
    done
    ended "$name" "$status" 0 ''
    holds "$name" crates/tests_refused/stdout
    if [ "$met" -eq 0 ] || [ $((at - 1 - met)) -ne 2 ]; then wrong "$name: it met $met of $((at - 1)) refusals" "$scratch/out"; fi
    echo "$name: $met runs met a refusal"
}

nothing=$scratch/nothing
: > "$nothing"
lines=$scratch/lines
seq 30000 > "$lines"
# No UTF-8.
no_text=$(printf '\377')
# As many bytes as a frame may have.
most=$(head -c 65535 /dev/zero | tr '\0' A)
system=$scratch/system.so
if ! "${CC:-cc}" -O2 -shared -fPIC -o "$system" tests/system.c -ldl 2> "$scratch/compiled"; then
    wrong 'tests/system.c is not compiled' "$scratch/compiled"
    exit 1
fi
for it in bufcopy replay frames bodies parts resp_server requests tests_refused; do
    if begins "$it"; then
        "run_$it"
        ends
    fi
done
exit "$failed"
