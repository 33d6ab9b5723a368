#!/usr/bin/env bash
# Builds cmpca and shows its answers: one message that verifies, one refusal of each kind, a journal, and an authority that is founded,
# whose devices enrol, renew, wait for an order and give a certificate up, over files; then it serves, and they enrol over HTTP.
# Safe to run twice; nothing is left behind. Ends with status 1 where an answer isn't the one told.
set -euo pipefail

top=$(cd "$(dirname "$0")" && pwd)
program=$("$top/bench/build.sh") || exit 1

# The secret of the device, `secret-1`
secret=7365637265742d31
# sender and recipient: a directoryName without parts
names=a4023000a4023000
# protectionAlg: PBMAC1 with PBKDF2 (salt 00 to 07, one iteration) and HMAC-SHA-256 (RFC 8018, A.5)
algorithm=a147304506092a864886f70d01050e3038302806092a864886f70d01050c301b04080001020304050607020101300c06082a864886f70d02090500300c06082a864886f70d02090500
# 0 iterations, which is outside the limits
no_rounds=${algorithm/607020101/607020100}
# pkiconf, and the MAC over header and body (made by Python's hashlib and hmac)
body=b3020500
mac=ff6a9dbf6e6138e94cfcaef5b41c0ce8dd9ad7680cd93ea723645c0f278bbcdb
protection=a023032100

header=3054020102$names$algorithm
wrong=${mac%b}a
# The same header with a messageTime, and the MAC over it
timed=3067020102${names}a011180f32303233313131343232313332305a$algorithm
timed_mac=b68cdb4967eb3053176168d807b508156f46f462a8ad96737ea2541dc674b191

failed=0

# Writes the octets of a hexadecimal word.
octets() {
    local hex=$1 text=
    while [ -n "$hex" ]; do
        text+="\\x${hex:0:2}"
        hex=${hex:2}
    done
    printf '%b' "$text"
}

# Runs the program on a message: title, message, the answer and the status that are told, words.
show() {
    local title=$1 message=$2 told=$3 status=0 answer
    local told_status=$4
    shift 4
    answer=$(octets "$message" | "$program" "$@") || status=$?
    printf '%s\n  $ cmpca %s\n  %s\n  status %s\n' "$title" "$*" "$answer" "$status"
    if [ "$answer" != "$told" ] || [ "$status" != "$told_status" ]; then
        printf '  but this was told: %s, status %s\n' "$told" "$told_status"
        failed=1
    fi
}

show "A pkiconf with the right MAC" \
    "307f$header$body$protection$mac" "protection verified" 0 verify $secret
show "The last bit of its MAC changed" \
    "307f$header$body$protection$wrong" "refused badMessageCheck" 1 verify $secret
show "Checked under another secret" \
    "307f$header$body$protection$mac" "refused badMessageCheck" 1 verify 7365637265742d32
show "Without protection" \
    "305a$header$body" "refused badMessageCheck" 1 verify $secret
show "A length that isn't as short as DER asks (X.690, 10.1)" \
    "3081803081${header:2:2}${header:4}$body$protection$mac" "refused badDataFormat" 1 verify $secret
show "No octets at all" \
    "" "refused badDataFormat" 1 verify $secret
show "No iterations in the parameters of PBKDF2" \
    "307f${header/$algorithm/$no_rounds}$body$protection$mac" "refused badAlg" 1 verify $secret
show "With a messageTime, and the MAC over it" \
    "308192$timed$body$protection$timed_mac" "protection verified" 0 verify $secret
show "A messageTime put in afterwards" \
    "308192$timed$body$protection$mac" "refused badMessageCheck" 1 verify $secret
show "A secret of 4 octets" \
    "" "usage: cmpca verify SECRET | JOURNAL KEY COMMAND" 2 verify 4a656665

# The journal of an enrolled device, laid out by Python
journal=$(python3 "$top/tests/vectors/journal_vectors.py" | sed -n 's/^journal //p')
umask 077
folder=$(mktemp -d)
server=
# Ends the server where it still runs, and leaves nothing behind.
leave() {
    if [ -n "$server" ]; then
        kill "$server" 2>/dev/null || true
        wait "$server" 2>/dev/null || true
    fi
    rm -rf "$folder"
}
trap leave EXIT
cd "$folder"
octets "$journal" >journal
show "A device that is enrolled" "" "changes 4
issue 3 of 32
reply 0 of 32
cert 3 confirmed 000102030405060708090a0b0c0d0e0f" 0 journal key show
octets "${journal%00}01ffffffff" >journal
show "A record that isn't whole behind its last one" "" "damaged at 660" 7 journal key show
octets "${journal:0:16}" >journal
show "A file of eight octets" "" "not founded" 8 journal key show

# An authority with fresh keys: 96 octets, in which the two identifiers differ. Python says by what it must be known
rm journal
identifiers_differ() {
    [ "$(tail -c +33 key | head -c 16 | od -An -v -tx1)" != "$(tail -c 16 key | od -An -v -tx1)" ]
}
: >key
until identifiers_differ; do head -c 96 /dev/urandom >key; done
head -c 95 key >short
hex() { od -An -v -tx1 | tr -d ' \n'; }
settings=$(hex <"$top/examples/settings.toml")
devices=$(hex <"$top/examples/devices.toml")
show "A key file of 95 octets" "$settings" "bad key file" 10 journal short init
show "Settings and a key file found an authority" \
    "$settings" "$(python3 "$top/tests/vectors/init_vectors.py" key)" 0 journal key init
show "A journal is founded once" "$settings" "refused already founded" 1 journal key init
show "The credentials of two devices, of which the second has to wait" "$devices" "enlisted 2" 0 journal key enlist
show "How it stands" "" "changes 2
issue 2 of 32
reply 0 of 32" 0 journal key show

# Lets the program answer a message of a file: title, file, status, file of the reply.
take() {
    local title=$1 message=$2 told_status=$3 reply=$4 status=0
    "$program" journal key take <"$message" >"$reply" || status=$?
    printf '%s\n  $ cmpca journal key take <%s >%s\n  %s octets\n  status %s\n' "$title" "$message" "$reply" "$(wc -c <"$reply" | tr -d ' ')" "$status"
    if [ "$status" != "$told_status" ]; then
        printf '  but this was told: status %s\n' "$told_status"
        failed=1
    fi
}

# A device in Python, which makes its key, checks each reply and carries the messages in files: step, folder, where its transactionIDs begin
device() { python3 -B "$top/tests/interop/device.py" "$1" "${2:-.}" "${3:-00}" || failed=1; }
device request
take "The device asks for a certificate (ir), and gets one (ip)" ir.der 0 ip.der
device confirm
take "The same ir again gets the same ip" ir.der 0 again.der
cmp ip.der again.der || failed=1
take "The device accepts the certificate (certConf), and is heard (pkiconf)" certconf.der 0 pkiconf.der
device done
head -c 1000 ir.der >cut.der
take "A message that is cut off is refused (error, badDataFormat)" cut.der 1 error.der
show "How it stands" "" "changes 4
issue 3 of 32
reply 0 of 32
cert 3 confirmed 000102030405060708090a0b0c0d0e0f" 0 journal key show

device renew
take "The device asks for a second key under the first one's signature (kur), and gets a certificate (kup)" kur.der 0 kup.der
device renewed
show "How it stands" "" "changes 5
issue 4 of 32
reply 1 of 32
cert 3 confirmed 000102030405060708090a0b0c0d0e0f
cert 4 confirmed 101112131415161718191a1b1c1d1e1f" 0 journal key show

device ask
take "The second device asks (cr), and has to wait (cp, waiting)" cr.der 0 waiting.der
device poll
take "It asks how it stands (pollReq), and has to wait (pollRep)" pollreq.der 0 pollrep.der
device again
show "How it stands" "" "changes 7
issue 4 of 32
reply 1 of 32
cert 3 confirmed 000102030405060708090a0b0c0d0e0f
cert 4 confirmed 101112131415161718191a1b1c1d1e1f
held 202122232425262728292a2b2c2d2e2f" 0 journal key show
show "The operator releases the request" "" "released" 0 journal key release 202122232425262728292a2b2c2d2e2f
show "A request is released once" "" "refused not held" 1 journal key release 202122232425262728292a2b2c2d2e2f
take "The second device asks once more (pollReq), and gets its certificate (cp)" again.der 0 cp.der
device fetch
show "How it stands" "" "changes 9
issue 5 of 32
reply 1 of 32
cert 3 confirmed 000102030405060708090a0b0c0d0e0f
cert 4 confirmed 101112131415161718191a1b1c1d1e1f
cert 5 confirmed 202122232425262728292a2b2c2d2e2f" 0 journal key show

device revoke
take "The first device gives its first certificate up (rr), as superseded, and is heard (rp)" rr.der 0 rp.der
device revoked
show "How it stands" "" "changes 10
issue 5 of 32
reply 1 of 32
cert 3 revoked 4 000102030405060708090a0b0c0d0e0f
cert 4 confirmed 101112131415161718191a1b1c1d1e1f
cert 5 confirmed 202122232425262728292a2b2c2d2e2f" 0 journal key show

# From here on the same authority serves over HTTP, to five connections
free_port() { python3 -c 'import socket; s = socket.socket(); s.bind(("127.0.0.1", 0)); print(s.getsockname()[1])'; }
# Whether a process listens on this port of 127.0.0.1
listens() { grep -q " 0100007F:$(printf %04X "$1") 00000000:0000 0A " /proc/net/tcp; }

port=$(free_port)
: >orders
printf 'The authority serves five connections to a free port of 127.0.0.1, by one worker\n  $ cmpca journal key serve PORT 1 5 orders &\n'
timeout 120 "$program" journal key serve "$port" 1 5 orders >summary 2>said &
server=$!
for _ in $(seq 600); do
    if listens "$port" || ! kill -0 "$server" 2>/dev/null; then break; fi
    sleep 0.1
done
if ! listens "$port"; then
    status=0
    wait "$server" || status=$?
    server=
    printf 'the server does not listen on port %s: status %s, %s %s\n' "$port" "$status" "$(cat summary)" "$(cat said)"
    exit 1
fi

# Posts a message of a file: with curl, or with Python where there is none. Prints the status
url=http://127.0.0.1:$port/.well-known/cmp
http() {
    if command -v curl >/dev/null; then
        curl -sS --noproxy '*' -m 60 -H 'Content-Type: application/pkixcmp' -H 'Expect:' --data-binary "@$1" -o "$2" -w '%{http_code}' "$url"
    else
        python3 - "$port" "$1" "$2" <<'POST'
import http.client, sys
port, message, reply = sys.argv[1:]
link = http.client.HTTPConnection("127.0.0.1", int(port), timeout=60)
link.request("POST", "/.well-known/cmp", open(message, "rb").read(), {"Content-Type": "application/pkixcmp"})
answer = link.getresponse()
open(reply, "wb").write(answer.read())
print(answer.status, end="")
POST
    fi
}

# Lets the server answer a message of a file: title, file, file of the reply.
send() {
    local title=$1 message=$2 reply=$3 status
    printf '%s\n  $ curl -H "Content-Type: application/pkixcmp" --data-binary @%s -o %s http://127.0.0.1:PORT/.well-known/cmp\n' "$title" "$message" "$reply"
    status=$(http "$message" "$reply") || status="$status, and the connection failed"
    if [ "$status" != 200 ]; then
        printf '  HTTP status %s, but this was told: 200; port %s, the server said: %s %s\n' "$status" "$port" "$(cat summary)" "$(cat said)"
        exit 1
    fi
    printf '  %s octets\n  HTTP status %s\n' "$(wc -c <"$reply" | tr -d ' ')" "$status"
}

mkdir net
device request net 40
send "A device asks for a certificate over HTTP (ir), and gets one (ip)" net/ir.der net/ip.der
device confirm net 40
send "It accepts the certificate (certConf), and is heard (pkiconf)" net/certconf.der net/pkiconf.der
device done net 40
device ask net 40
send "Another one asks (cr), and has to wait (cp, waiting)" net/cr.der net/waiting.der
device poll net 40
send "It asks how it stands (pollReq), and has to wait (pollRep)" net/pollreq.der net/pollrep.der
device again net 40
printf 'The operator releases the request, while the authority serves\n  $ echo release 606162636465666768696a6b6c6d6e6f >>orders\n'
echo release 606162636465666768696a6b6c6d6e6f >>orders
for _ in $(seq 600); do
    if "$program" journal key show 2>/dev/null | grep -q '^released 606162636465666768696a6b6c6d6e6f$'; then break; fi
    sleep 0.1
done
send "It asks once more (pollReq), and gets its certificate (cp)" net/again.der net/cp.der
device fetch net 40

status=0
wait "$server" || status=$?
server=
printf 'All five connections were served\n  %s\n  status %s\n' "$(cat summary)" "$status"
if [ "$status" != 0 ] || [ "$(cat summary)" != "connections 5
changes 16
orders 1 done 0 refused" ]; then
    printf '  but this was told: connections 5, changes 16, orders 1 done 0 refused, status 0; %s\n' "$(cat said)"
    failed=1
fi
show "How it stands, over files and over HTTP one history" "" "changes 16
issue 7 of 32
reply 1 of 32
cert 3 revoked 4 000102030405060708090a0b0c0d0e0f
cert 4 confirmed 101112131415161718191a1b1c1d1e1f
cert 5 confirmed 202122232425262728292a2b2c2d2e2f
cert 6 confirmed 404142434445464748494a4b4c4d4e4f
cert 7 confirmed 606162636465666768696a6b6c6d6e6f" 0 journal key show

exit $failed
