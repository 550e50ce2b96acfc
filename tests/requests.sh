# sh tests/requests.sh [built]
#
# What the program `requests` answers. Rows that need no peer: heads that may be read in two ways, bodies that are cut short, and
# requests that are cut at each byte, of which each row says the statuses that are wanted, by RFC 9112. And real peers, over
# sockets of the loopback, for which it wants python3: http.client, curl, and node's http, each left out where it isn't there.
#
# `built` says that `rt ci` has just built it; else it is proved and built first. It writes nothing into the repository but what
# rt builds in the folder out/, and ends with status 0 only where each run ended well.
set -u
built=${1-}

cd "$(dirname "$0")/.." || exit 1
scratch=$(mktemp -d) || exit 1
failed=0
runs=0
program=$PWD/crates/requests/out/requests
server=
relay=

cleans() {
    for it in $server $relay; do kill "$it" 2> "$scratch/none"; done
    rm -rf "$scratch"
}
trap cleans EXIT
trap 'exit 129' HUP
trap 'exit 130' INT
trap 'exit 141' PIPE
trap 'exit 143' TERM

if [ "$built" != built ] || [ ! -x "$program" ]; then
    (cd crates/requests && rt run < stdin) > "$scratch/log" 2>&1 || {
        tail -n 40 "$scratch/log" >&2
        echo "requests: it is not built" >&2
        exit 1
    }
fi

wrong() { # what is said of it
    echo "requests: $1" >&2
    failed=1
}

# The statuses, and for a 200 with a payload its length, in order; and in front that of the program, where it fails.
answers() { # the file that came in
    timeout 20 "$program" < "$1" > "$scratch/out" 2> "$scratch/err" || printf 'status %d: ' $?
    tr -d '\r' < "$scratch/out" | awk '/^HTTP/ { printf "%s%s", sep, $2; sep = " " } /^ *[0-9]+$/ { printf ":%d", $1 }'
}

# A row: what comes in, as `printf %b` writes it, and what is wanted.
row() {
    printf '%b' "$1" > "$scratch/in"
    got=$(answers "$scratch/in")
    runs=$((runs + 1))
    if [ "$got" != "$2" ]; then wrong "'$got', not '$2', of $(printf '%.90s' "$1")"; fi
}

H='Host: a\r\n'
P="POST / HTTP/1.1\r\n$H"
G="GET /smuggled HTTP/1.1\r\n$H\r\n"
C='Transfer-Encoding: chunked\r\n'

# One reading.
row "$G" '200:0'
row "${P}Content-Length: 5\r\n\r\nhello$G" '200:5 200:0'
row "${P}Content-Length: 0\r\n\r\n$G" '200:0 200:0'
row "${P}content-length:\t5 \r\n\r\nhello$G" '200:5 200:0'
row "${P}$C\r\n3\r\nabc\r\n0\r\n\r\n$G" '200:3 200:0'
row "${P}transfer-encoding: CHUNKED\r\n\r\n3;a=b\r\nabc\r\n00\r\nT: v\r\n\r\n$G" '200:3 200:0'
row "${P}Content-Length: 35\r\n\r\n$G$G" '200:35 200:0'
row "${P}$C\r\n23\r\n$G\r\n0\r\n\r\n$G" '200:35 200:0'
row "HEAD / HTTP/1.1\r\n$H\r\n$G" '200 200:0'

# None.
row "${P}Content-Length: 5\r\nContent-Length: 5\r\n\r\nhello$G" '400'
row "${P}Content-Length: 5\r\nContent-Length: 6\r\n\r\nhello$G" '400'
row "${P}Content-Length: 5, 5\r\n\r\nhello$G" '400'
row "${P}Content-Length: 5, 6\r\n\r\nhello$G" '400'
row "${P}Content-Length: +5\r\n\r\nhello$G" '400'
row "${P}Content-Length: -5\r\n\r\nhello$G" '400'
row "${P}Content-Length: 0x5\r\n\r\nhello$G" '400'
row "${P}Content-Length: 5 5\r\n\r\nhello$G" '400'
row "${P}Content-Length: 5.0\r\n\r\nhello$G" '400'
row "${P}Content-Length: \r\n\r\n$G" '400'
row "${P}Content-Length: 18446744073709551616\r\n\r\n$G" '400'
row "${P}Content-Length : 5\r\n\r\nhello$G" '400'
row "${P}Content-Length: 5\r\n$C\r\n0\r\n\r\n$G" '400'
row "${P}${C}Content-Length: 5\r\n\r\n0\r\n\r\n$G" '400'
row "${P}$C$C\r\n0\r\n\r\n$G" '400'
row "${P}Transfer-Encoding: chunked, chunked\r\n\r\n0\r\n\r\n$G" '400'
row "${P}Transfer-Encoding: chunked, gzip\r\n\r\n0\r\n\r\n$G" '400'
row "${P}Transfer-Encoding: gzip\r\n\r\n0\r\n\r\n$G" '400'
row "${P}Transfer-Encoding: identity\r\n\r\n$G" '400'
row "${P}Transfer-Encoding: xchunked\r\n\r\n0\r\n\r\n$G" '400'
row "${P}Transfer-Encoding: gzip;q=1, chunked\r\n\r\n0\r\n\r\n$G" '400'
row "${P}Transfer-Encoding: chunked;q=1\r\n\r\n0\r\n\r\n$G" '400'
row "${P}Transfer-Encoding: \"chunked\"\r\n\r\n0\r\n\r\n$G" '400'
row "${P}Transfer-Encoding:\013chunked\r\n\r\n0\r\n\r\n$G" '400'
row "${P}Transfer-Encoding : chunked\r\n\r\n0\r\n\r\n$G" '400'
row "${P} Transfer-Encoding: chunked\r\n\r\n0\r\n\r\n$G" '400'
row "${P}X: a\r\n Transfer-Encoding: chunked\r\n\r\n0\r\n\r\n$G" '400'
row "${P}X: a\r\n\tb\r\n\r\n$G" '400'
row "POST / HTTP/1.0\r\n$C\r\n0\r\n\r\n$G" '400'
row "GET / HTTP/1.1\nHost: a\n\n$G" '400'
row "GET / HTTP/1.1\r\nHost: a\n\r\n$G" '400'
row "GET / HTTP/1.1\r\nHost: a\r\n\n$G" '400'
row "GET / HTTP/1.1\r\nHost: a\r\rX: b\r\n\r\n$G" '400'
row "GET / HTTP/1.1\r\n\r\n$G" '400'
row "GET / HTTP/1.1\r\n$H$H\r\n$G" '400'
row "GET / HTTP/1.1\r\n$H: x\r\n\r\n$G" '400'
row "GET / HTTP/1.1\r\n${H}X\r\n\r\n$G" '400'
row "GET / HTTP/1.1 \r\n$H\r\n$G" '400'
row "${P}$C\r\n+3\r\nabc\r\n0\r\n\r\n$G" '400'
row "${P}$C\r\n0x3\r\nabc\r\n0\r\n\r\n$G" '400'
row "${P}$C\r\n3 \r\nabc\r\n0\r\n\r\n$G" '400'
row "${P}$C\r\n3\nabc\r\n0\r\n\r\n$G" '400'
row "${P}$C\r\n3\r\nabcd\r\n0\r\n\r\n$G" '400'
row "${P}$C\r\n3\r\nabc0\r\n\r\n$G" '400'
row "${P}$C\r\n3;a\nb\r\nabc\r\n0\r\n\r\n$G" '400'
row "${P}$C\r\nfffffffffffffffff\r\nabc" '400'
row "${P}$C\r\n0\r\nT v\r\n\r\n$G" '400'

# What is asked for isn't named plainly, or coded: an escape has two hexadecimal digits, and brackets hold an address of IPv6, or
# of a later version (RFC 3986, sections 2.1 and 3.2.2).
for host in 'a b' 'a, b' 'a/b' 'a:bad' 'a:80:80' '\0377' '[::1' '[g]' ':80' 'a@b' '%' 'a%zz' 'a%2' '[:]' '[....]' '[1]' '[]' \
    '[1::2::3]' '[1:2:3:4:5:6:7]' '[12345::]' '[::1.2.3]' '[::%31]' '[v1.]' '[v.a]' '[v1.%61]' '[v1.a]b'; do
    row "GET / HTTP/1.1\r\nHost: $host\r\n\r\n$G" '400'
done
for host in '' 'a' 'a:' 'a:80' 'A-b.c_d~1' '127.0.0.1:8080' '[::1]' '[::ffff:1.2.3.4]:80' 'a%20b' 'a%2F%fF' '[::]' \
    '[1:2:3:4:5:6:7:8]' '[v1.a]' '[VF.a:b]:80'; do
    row "GET / HTTP/1.1\r\nHost: $host\r\n\r\n$G" '200:0 200:0'
done
# A scheme begins with a letter (section 3.1), and a host of http isn't empty, and has no user before it (RFC 9110, sections 4.2.1
# and 4.2.4).
for target in 'x' '/#x' '*' '/\0042<>' '/a\0134b' '/\0377' 'http:/a' 'http://' '://a' 'a:80' '/%zz' '/%' '/a?%4' '1a://x' \
    '+://a' 'http:///x' 'http://?x' 'HTTPS:///x' 'http://:80/' 'http://a:bad/' 'http://a]b/' 'http://[/' 'http://[1]/' \
    'http://a%zz/' 'http://u@a/' 'ftp://u@v@a/' 'ftp://a/[' 'ftp://a:b@c:d/'; do
    row "GET $target HTTP/1.1\r\n$H\r\n$G" '400'
done
for target in '/' '/a/b;c=d?e=%20f&g' 'http://a/b?c' 'http://[::1]:80/' 'http://a' 'http://a?/' 'Http://%61:/%62' \
    'https://[v1.a]/' 'a1+-.://b' 'file:///x' 'ftp://u:p@a:21/x'; do
    row "GET $target HTTP/1.1\r\n$H\r\n$G" '200:0 200:0'
done
row "OPTIONS * HTTP/1.1\r\n$H\r\n$G" '200:0 200:0'

# What is understood, and not done: other codings within chunks (RFC 9112, section 6.1), tunnels, methods that aren't known, and
# other versions; later ones of HTTP/1 are as 1.1 (RFC 9110, section 2.5). Empty elements of a list say nothing (RFC 9110,
# section 5.6.1), so behind one `chunked` stands alone.
for coding in 'gzip, chunked' 'identity, chunked'; do
    row "${P}Transfer-Encoding: $coding\r\n\r\n3\r\nabc\r\n0\r\n\r\n$G" '501'
done
row "${P}Transfer-Encoding: , chunked\r\n\r\n3\r\nabc\r\n0\r\n\r\n$G" '200:3 200:0'
row "CONNECT a:1 HTTP/1.1\r\n$H\r\n$G" '501'
row "CONNECT a:1 HTTP/1.1\r\n\r\n$G" '400'
row "${P}${H}Transfer-Encoding: gzip, chunked\r\n\r\n$G" '400'
row "${P}Transfer-Encoding: gzip\r\nTransfer-Encoding: chunked\r\n\r\n3\r\nabc\r\n0\r\n\r\n$G" '400'
for method in PUT DELETE OPTIONS PATCH; do
    row "$method / HTTP/1.1\r\n$H\r\n$G" '200:0 200:0'
done
for method in TRACE FOO get GETS M-SEARCH; do
    row "$method / HTTP/1.1\r\n${H}Content-Length: 5\r\n\r\nhello$G" '501 200:0'
    row "$method / HTTP/1.1\r\n${H}Connection: close\r\n\r\n$G" '501'
done
for version in 2.0 0.9 3.1; do row "GET / HTTP/$version\r\n$H\r\n$G" '505'; done
for version in 2 20 2.x x.1 1. '2.0 '; do row "GET / HTTP/$version\r\n$H\r\n$G" '400'; done
for version in 1.2 1.9; do
    row "GET / HTTP/$version\r\n$H\r\n$G" '200:0 200:0'
    row "\r\nCONNECT a:1 HTTP/$version\r\n$H\r\n$G" '501'
done
row 'PRI * HTTP/2.0\r' '505'

# A first line with which no request begins is refused while the client waits: of SSH, of HTTP/0.9, of TLS, of another protocol.
mkfifo "$scratch/open"
exec 3<> "$scratch/open"
for line in 'SSH-2.0-x\r\n' 'GET /\r\n' '\0026\0003\0001' 'OPTIONS /a RTSP/1.0\r\n' 'GET  / ' '\r\n:'; do
    printf '%b' "$line" >&3
    got=$(answers "$scratch/open")
    runs=$((runs + 1))
    if [ "$got" != 400 ]; then wrong "'$got', not '400', of $line, and no more"; fi
done
exec 3>&-

# Empty lines in front of a head, or at the end, say nothing.
row "\r\n$G" '200:0'
row "\r\n\r\n$G" '200:0'
row "$G\r\n" '200:0'
row "$G\r\n\r\n" '200:0'
row "${P}Content-Length: 5\r\n\r\nhello\r\n" '200:5'
row "${P}$C\r\n3\r\nabc\r\n0\r\n\r\n\r\n\r\n" '200:3'
row "${P}Content-Length: 5\r\n\r\nhello\r\n$G\r\n" '200:5 200:0'
row "\r\n" ''
row "$G\n" '200:0 400'
row "$G\r\n\r" '200:0'

# A target of 8,000 bytes and a few fields are read, and what is too long, or too many, isn't.
long=$(printf '%08000d' 0)
row "GET /$long HTTP/1.1\r\n${H}X: $(printf '%0200d' 0)\r\n\r\n$G" '200:0 200:0'
row "GET /$long$long$long HTTP/1.1\r\n$H\r\n$G" '414'
row "\r\nGET /$long$long$long" '414'
row "GET / HTTP/1.1\r\n${H}X: $long$long$long\r\n\r\n$G" '431'
row "GET / HTTP/1.1\r\nX: $long\r\nX: $long\r\nX: $long" '431'
row "GET / HTTP/1.1\r\nX: $long\r\nX: $long\n\r\n$G" '400'
fields=$(printf 'X: %d\\r\\n' $(seq 63))
row "GET / HTTP/1.1\r\n$H$fields\r\n$G" '200:0 200:0'
row "GET / HTTP/1.1\r\n$H${fields}X: 64\r\n\r\n$G" '431'
row "\r\nGET / HTTP/1.1\r\n$H${fields}X: 64\r\n\r\n$G" '431'

# What is no payload has a total in chunks, of 16,384 bytes and five for each byte of payload, and payload one of 2^40.
zeros() { printf "%0$1d" 0; }
many() { printf "%.0s$2" $(seq "$1"); }
chunk="1;$(zeros 250)\\\\r\\\\nx\\\\r\\\\n"
row "${P}$C\r\n$(many 65 "$chunk")0;$(zeros 63)\r\n\r\n$G" '200:65 200:0'
row "${P}$C\r\n$(many 65 "$chunk")0;$(zeros 64)\r\n\r\n$G" '413'
row "${P}$C\r\n$(many 2000 "$chunk")0\r\n\r\n$G" '413'
row "${P}$C\r\n$(many 65 "$chunk")0;$(zeros 63)\r\n: x\r\n\r\n$G" '400'
row "${P}$C\r\n$(many 65 "$chunk")0;$(zeros 66)\r\n: x\r\n\r\n$G" '413'
row "${P}$C\r\n$(many 20000 '1\\r\\nx\\r\\n')0\r\n\r\n$G" '200:20000 200:0'
row "${P}Content-Length: 1099511627776\r\n\r\n$G" '400'
row "${P}Content-Length: 1099511627777\r\n\r\n$G" '413'
row "${P}Expect: 100-continue\r\nContent-Length: 1099511627777\r\n\r\n$G" '413'

# Cut short.
row "GET / HTTP/1.1\r\n${H}X: " '400'
row "${P}Content-Length: 5\r\n\r\nhel" '400'
row "${P}$C\r\n5\r\nhel" '400'
row "${P}$C\r\n5\r\nhello\r\n" '400'

# What ends behind the answer, and what goes on.
row "GET / HTTP/1.1\r\n${H}Connection: close\r\n\r\n$G" '200:0'
row "GET / HTTP/1.1\r\n${H}Connection: x, CLOSE\r\n\r\n$G" '200:0'
row "GET / HTTP/1.0\r\n\r\n$G" '200:0'
row "GET / HTTP/1.0\r\nConnection: keep-alive\r\n\r\n$G" '200:0 200:0'
row "${P}Expect: 100-continue\r\nContent-Length: 5\r\n\r\nhello$G" '100 200:5 200:0'
row "${P}Expect: 100-continue\r\n\r\n$G" '200:0 200:0'
row "${P}Expect:\r\n\r\n$G" '200:0 200:0'
for list in '100-continue,' ', 100-continue' '100-continue ,,\t100-CONTINUE'; do
    row "${P}Expect: $list\r\nContent-Length: 5\r\n\r\nhello$G" '100 200:5 200:0'
done
row "${P}Expect: ,\r\nContent-Length: 5\r\n\r\nhello$G" '200:5 200:0'
for other in x '100-continue=1' '100-continue, 101-continue' ', x' '100-continue 100-continue'; do
    row "${P}Expect: $other\r\n\r\n$G" '417 200:0'
done
row "${P}Expect: x\r\nContent-Length: 5\r\n\r\nhello$G" '417 200:0'
row "${P}Expect: 100-Continue\r\nexpect: x\r\n$C\r\n3\r\nabc\r\n0\r\n\r\n$G" '417'
row "FOO / HTTP/1.1\r\n${H}Expect: 100-continue\r\nContent-Length: 5\r\n\r\nhello$G" '501'
row "${P}Expect: x\r\nConnection: close\r\n\r\n$G" '417'
row "FOO / HTTP/1.1\r\n${H}Expect: x\r\n\r\n$G" '501 200:0'

# Cut at each byte: what comes before the cut is answered as far as it is whole.
printf '%b' "${P}Content-Length: 5\r\n\r\nhello${P}$C\r\n3\r\nabc\r\n0\r\n\r\n$G" > "$scratch/all"
size=$(wc -c < "$scratch/all")
one=$(printf '%b' "${P}Content-Length: 5\r\n\r\nhello" | wc -c)
two=$((one + $(printf '%b' "${P}$C\r\n3\r\nabc\r\n0\r\n\r\n" | wc -c)))
at=0
while [ "$at" -le "$size" ]; do
    head -c "$at" "$scratch/all" > "$scratch/in"
    want=
    if [ "$at" -ge "$one" ]; then want='200:5'; fi
    if [ "$at" -ge "$two" ]; then want='200:5 200:3'; fi
    if [ "$at" -eq "$size" ]; then
        want='200:5 200:3 200:0'
    elif [ "$at" -ne 0 ] && [ "$at" -ne "$one" ] && [ "$at" -ne "$two" ]; then
        want="$want${want:+ }400"
    fi
    got=$(answers "$scratch/in")
    runs=$((runs + 1))
    if [ "$got" != "$want" ]; then wrong "'$got', not '$want', cut at $at"; fi
    at=$((at + 1))
done
echo "requests: $runs rows"

# Real peers.
has() {
    if command -v "$1" > "$scratch/none"; then return 0; fi
    echo "requests: no $1, so left out: $2"
    return 1
}

has python3 'all peers' || exit "$failed"
python3 - "$program" "$scratch/port" << 'LISTENER' &
import os, signal, socket, sys
signal.signal(signal.SIGCHLD, signal.SIG_IGN)
at = socket.create_server(('127.0.0.1', 0))
with open(sys.argv[2] + '.new', 'w') as port:
    port.write(str(at.getsockname()[1]))
os.rename(sys.argv[2] + '.new', sys.argv[2])
while True:
    to, _ = at.accept()
    if os.fork() == 0:
        os.dup2(to.fileno(), 0)
        os.dup2(to.fileno(), 1)
        os.execv(sys.argv[1], [sys.argv[1]])
    to.close()
LISTENER
server=$!
tries=0
while [ ! -s "$scratch/port" ]; do
    tries=$((tries + 1))
    if [ "$tries" -gt 100 ]; then
        wrong 'nobody listens'
        exit 1
    fi
    sleep 0.1
done
port=$(cat "$scratch/port")
url=http://127.0.0.1:$port/

counts() { # what was said, the lengths wanted, in a line
    runs=$((runs + 1))
    got=$(tr -d '\r' < "$scratch/out" | awk '/^ *[0-9]+$/ { printf "%s%d", sep, $1; sep = " " }')
    if [ "$got" != "$2" ]; then wrong "$1: '$got', not '$2'"; fi
}

# Each byte a write of its own.
runs=$((runs + 1))
python3 - "$port" "$scratch/all" << 'PEER' || wrong 'byte by byte'
import socket, sys
to = socket.create_connection(('127.0.0.1', int(sys.argv[1])))
to.setsockopt(socket.IPPROTO_TCP, socket.TCP_NODELAY, 1)
for byte in open(sys.argv[2], 'rb').read():
    to.sendall(bytes([byte]))
to.shutdown(socket.SHUT_WR)
got = b''
while more := to.recv(4096):
    got += more
assert got.count(b'HTTP/1.1 200 OK') == 3 and b' 400 ' not in got, got
PEER

# Nine hundred that are there at once are answered by full buffers, and at most a write more for each that the input fills, and
# each that is waited for by one write.
runs=$((runs + 1))
python3 - "$program" << 'PEER' || wrong 'writes'
import socket, subprocess, sys
def writes(parts):
    here, there = socket.socketpair(socket.AF_UNIX, socket.SOCK_SEQPACKET)
    run = subprocess.Popen([sys.argv[1]], stdin=subprocess.PIPE, stdout=there)
    there.close()
    counts, got = [], b''
    for part, answers in parts:
        run.stdin.write(part)
        run.stdin.flush()
        count, answered = 0, 0
        while answered < answers:
            text = here.recv(1 << 20)
            assert text, got
            count += 1
            got += text
            answered = got.count(b'HTTP/1.1 2')
        counts.append(count)
        got = b''
    run.stdin.close()
    assert here.recv(1) == b'' and run.wait() == 0
    return counts
one = b'GET / HTTP/1.1\r\nHost: a\r\n\r\n'
body = b'POST / HTTP/1.1\r\nHost: a\r\nContent-Length: 5\r\n\r\nhello'
chunks = b'POST / HTTP/1.1\r\nHost: a\r\nTransfer-Encoding: chunked\r\n\r\n3\r\nabc\r\n0\r\n\r\n'
size = len(b'HTTP/1.1 200 OK\r\nContent-Length: 21\r\nConnection: keep-alive\r\n\r\n') + 21
for some in (one, body, chunks, one + body + chunks):
    many = some * (900 // some.count(b'HTTP'))
    [count] = writes([(many, 900)])
    # A read of ours may end within a request, and then what is held is sent before the next.
    assert count <= size * 900 // 65536 + len(many) // 4096 + 2, count
assert writes([(one, 1), (one * 3, 3), (body, 1), (chunks, 1)]) == [1, 1, 1, 1]
PEER

# On a bare socket, where nobody set `nodelay`: four at once, each time when the last are answered, and a thousand in one write. Of
# four no answer is a write of its own: then one would wait for 40 ms, since the kernel holds a small write back until the last
# one is acknowledged, and acknowledges late. It tells how many are answered in a second.
cat > "$scratch/pipelined.py" << 'PEER'
import socket, sys, time
name, port = sys.argv[1:]
one = b'GET / HTTP/1.1\r\nHost: a\r\n\r\n'
def answered(to, count):
    begun, seen, tail = time.monotonic(), 0, b''
    to.sendall(one * count)
    while seen < count or not tail.endswith(b'\n'):
        text = to.recv(65536)
        assert text, 'it ended'
        seen += (tail[-7:] + text).count(b'HTTP/1.1')
        tail = (tail + text)[-7:]
    return time.monotonic() - begun
to = socket.create_connection(('127.0.0.1', int(port)))
four = [answered(to, 4) for _ in range(200)]
many = [answered(to, 1000) for _ in range(5)]
to.shutdown(socket.SHUT_WR)
assert to.recv(1) == b'', 'more answers'
middle, middle_of_many = sorted(four)[100], sorted(many)[2]
print(f'{name}: {4 / middle:.0f} a second, four at once; {1000 / middle_of_many:.0f}, a thousand at once')
assert name == 'node' or middle < 0.02 and middle_of_many < 0.03, (four, many)
PEER
runs=$((runs + 1))
python3 "$scratch/pipelined.py" requests "$port" || wrong 'pipelined'
if command -v node > "$scratch/none"; then
    node -e 'const http = require("http");
        const server = http.createServer((from, to) => from.resume().on("end", () => to.end(" ".repeat(19) + "0\n")));
        server.listen(0, "127.0.0.1", () => console.log(server.address().port))' > "$scratch/node" &
    relay=$!
    until [ -s "$scratch/node" ]; do sleep 0.1; done
    python3 "$scratch/pipelined.py" node "$(cat "$scratch/node")"
    kill "$relay"
    relay=
fi

if has curl 'its requests'; then
    head -c 200000 /dev/zero > "$scratch/body"
    curl -sS -m 20 "$url" "$url" "$url" > "$scratch/out" || wrong 'curl, several'
    counts 'curl, several' '0 0 0'
    curl -sS -m 20 -v "$url" "$url" 2>&1 > "$scratch/out" | grep -qi 're-us' || wrong 'curl makes a connection for each'
    curl -sS -m 20 -T "$scratch/body" "$url" "$url" > "$scratch/out" || wrong 'curl, a length'
    counts 'curl, a length' '200000 0'
    curl -sS -m 20 -T - "$url" < "$scratch/body" > "$scratch/out" || wrong 'curl, in chunks'
    counts 'curl, in chunks' '200000'
    curl -sS -m 20 -H 'Expect: 100-continue' -d hello "$url" > "$scratch/out" || wrong 'curl waits'
    counts 'curl waits' '5'
    curl -sS -m 20 -v -I "$url" > "$scratch/out" 2>&1 || wrong 'curl, HEAD'
    if grep -qi excess "$scratch/out"; then wrong 'curl, HEAD: a body came'; fi
    runs=$((runs + 1))
    curl -sS -m 20 -0 "$url" > "$scratch/out" || wrong 'curl, HTTP/1.0'
    counts 'curl, HTTP/1.0' '0'
fi

python3 - "$port" > "$scratch/out" << 'PEER' || wrong 'http.client'
import http.client, sys
to = http.client.HTTPConnection('127.0.0.1', int(sys.argv[1]), timeout=20)
for body in (None, b'hello', iter([b'ab', b'cde']), b'x' * 70000):
    to.request('POST', '/', body=body)
    print(to.getresponse().read().decode(), end='')
PEER
counts 'http.client' '0 5 5 70000'

if has node 'its http'; then
    node - "$port" > "$scratch/out" << 'PEER' || wrong 'node'
const http = require('http');
const agent = new http.Agent({ keepAlive: true, maxSockets: 1 });
function ask(parts, fields) {
    return new Promise((done, fail) => {
        const to = http.request({ host: '127.0.0.1', port: process.argv[2], method: 'POST', agent, headers: fields });
        to.on('error', fail);
        to.on('response', (from) => from.on('data', (text) => process.stdout.write(text)).on('end', done));
        for (const part of parts) to.write(part);
        to.end();
    });
}
(async () => {
    await ask(['hello'], { 'Content-Length': 5 });
    await ask(['ab', 'cde', 'f'.repeat(70000)], {});
    await ask([], {});
    agent.destroy();
})();
PEER
    counts 'node' '5 70005 0'
fi

# Many requests at once, for a second: `wrk` sends sixteen before it reads an answer, on each of four connections, and looks at
# each answer.
if has wrk 'many requests at once' && has socat 'many requests at once'; then
    cat > "$scratch/load.lua" << 'LOAD'
local wanted = string.format('%20d\n', 5)
wrong = 0
function setup(thread) only = thread end
function init()
    local kinds = {
        wrk.format('POST', '/', {}, 'hello'),
        wrk.format('POST', '/', { ['Transfer-Encoding'] = 'chunked' }) .. '2\r\nhe\r\n3\r\nllo\r\n0\r\n\r\n',
    }
    local all = {}
    for i = 1, 16 do all[i] = kinds[i % 2 + 1] end
    many = table.concat(all)
end
function request() return many end
function response(status, _, body)
    if status ~= 200 or body ~= wanted then wrong = wrong + 1 end
end
function done(summary)
    local failed = summary.errors
    print('load', summary.requests >= 16, only:get('wrong'), failed.connect + failed.read + failed.write + failed.timeout)
end
LOAD
    socat -d -d TCP-LISTEN:0,bind=127.0.0.1,backlog=16,fork EXEC:"$program" 2> "$scratch/relay" &
    relay=$!
    tries=0
    until grep -qs 'listening on' "$scratch/relay" || [ "$tries" -gt 100 ]; do
        tries=$((tries + 1))
        sleep 0.1
    done
    runs=$((runs + 1))
    at=$(sed -n 's/.*listening on .*:\([0-9]*\)$/\1/p' "$scratch/relay")
    wrk -t 1 -c 4 -d 1s -s "$scratch/load.lua" "http://127.0.0.1:$at/" > "$scratch/out" 2>&1
    got=$(sed -n 's/^load//p' "$scratch/out" | tr -s '\t' ' ')
    if [ "$got" != ' true 0 0' ]; then wrong "wrk: '$got', not ' true 0 0'"; fi
fi

echo "requests: $runs runs"
exit "$failed"
