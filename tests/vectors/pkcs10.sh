#!/bin/sh
# Prints a PKCS #10 request by OpenSSL, in hex: signed by Ed25519 under the key whose seed is the octets 00 to 1f, with an
# extensionRequest and the attribute unstructuredName. Its signature is a function of its octets, so each run prints the same.
set -eu

folder=$(mktemp -d)
trap 'rm -rf "$folder"' EXIT
seed=000102030405060708090a0b0c0d0e0f101112131415161718191a1b1c1d1e1f
printf '302e020100300506032b657004220420%s' "$seed" | python3 -c 'import sys; sys.stdout.buffer.write(bytes.fromhex(sys.stdin.read()))' >"$folder/key.der"
cat >"$folder/request.conf" <<'END'
[req]
prompt = no
distinguished_name = name
attributes = attributes
req_extensions = extensions
string_mask = utf8only
[name]
C = DE
O = Fleet
CN = device-1
[attributes]
unstructuredName = gate seven
[extensions]
keyUsage = critical, digitalSignature
subjectAltName = DNS:device.fleet.example
END
openssl req -new -keyform DER -key "$folder/key.der" -config "$folder/request.conf" -outform DER 2>/dev/null \
    | python3 -c 'import sys; print(sys.stdin.buffer.read().hex())'
