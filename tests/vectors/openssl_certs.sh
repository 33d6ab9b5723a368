#!/bin/sh
# Prints certificates that OpenSSL makes, RSA and EC, each whole in hex, with its fields as OpenSSL reads them.
# Keys are drawn anew, so each run prints others.
set -eu
folder=$(mktemp -d)
trap 'rm -rf "$folder"' EXIT
cd "$folder"
echo "# $(openssl version)"
for kind in rsa:1024 ec; do
    case $kind in
    rsa:*) set -- -newkey "$kind" ;;
    *) set -- -newkey ec -pkeyopt ec_paramgen_curve:prime256v1 ;;
    esac
    openssl req -x509 "$@" -nodes -keyout key.pem -subj "/O=Fleet/CN=device-1" -set_serial 128 -days 365 \
        -addext "keyUsage=critical,digitalSignature" -addext "subjectAltName=DNS:device.fleet.example" \
        -outform DER -out cert.der 2>/dev/null
    echo
    echo "[$kind]"
    openssl x509 -inform DER -in cert.der -noout -serial -subject -dates -dateopt iso_8601
    echo "certificate $(od -An -v -tx1 cert.der | tr -d ' \n')"
    openssl asn1parse -inform DER -in cert.der | head -4
done
