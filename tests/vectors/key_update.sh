#!/bin/sh
# Prints a key update request by OpenSSL, in hex, and its fields: of device-1, whose certificate by Fleet CA has the serial number
# 0102030405060708, for a P-256 key and an address, with implicitConfirm. Nobody answers it. Each run draws new keys.
set -eu

folder=$(mktemp -d)
trap 'rm -rf "$folder"' EXIT
cd "$folder"
openssl ecparam -name prime256v1 -genkey -noout -out key.pem 2>/dev/null
openssl req -x509 -new -key key.pem -subj "/CN=Fleet CA" -days 3650 -out ca.pem -set_serial 1 2>/dev/null
openssl req -x509 -new -key key.pem -subj "/CN=device-1" -days 3650 -out device.pem -set_serial 0x0102030405060708 -CA ca.pem -CAkey key.pem 2>/dev/null
openssl cmp -cmd kur -server 127.0.0.1:9 -oldcert device.pem -cert device.pem -key key.pem -newkey key.pem -subject "/CN=device-1" \
    -recipient "/CN=Fleet CA" -trusted ca.pem -implicit_confirm -sans 1.2.3.4 -reqout update.der -certout new.pem \
    -total_timeout 2 -msg_timeout 1 >/dev/null 2>&1 || true
python3 -c 'import sys; print(sys.stdin.buffer.read().hex())' <update.der
openssl asn1parse -inform der -in update.der
