#!/bin/sh
# Makes the vectors anew in a folder, and checks those of LMS by a second implementation.
# Words: the folder. Without javac, java or Bouncy Castle its vectors are skipped.
set -eu

here=$(cd "$(dirname "$0")" && pwd)
out=${1:?usage: make.sh FOLDER}
mkdir -p "$out"

if ! command -v python3 >/dev/null; then
    echo "skipped: no python3"
    exit 0
fi
python3 "$here/mac_vectors.py" >"$out/hmac.txt"
python3 "$here/frame_vectors.py" "$out/frame.der" >"$out/frames.txt"
python3 "$here/change_vectors.py" >"$out/changes.txt"
python3 "$here/history_vectors.py" >"$out/histories.txt"
python3 "$here/rule_vectors.py" >"$out/rules.txt"
python3 "$here/lines_vectors.py" >"$out/lines.txt"
python3 "$here/journal_vectors.py" >"$out/journals.txt"
python3 "$here/log_vectors.py" >"$out/logs.txt"
python3 "$here/book_vectors.py" >"$out/books.txt"
python3 "$here/init_vectors.py" >"$out/inits.txt"
python3 "$here/near_certs.py" >"$out/near_certs.txt"
python3 "$here/neighbours.py" >"$out/neighbours.txt"
python3 "$here/ask_vectors.py" >"$out/asks.txt"
python3 "$here/check_vectors.py" >"$out/checks.txt"
python3 "$here/key_vectors.py" >"$out/keys.txt"
python3 "$here/wish_vectors.py" >"$out/wishes.txt"
python3 "$here/serve_vectors.py" >"$out/serves.txt"
if command -v openssl >/dev/null; then
    "$here/openssl_certs.sh" >"$out/openssl_certs.txt"
    "$here/pkcs10.sh" >"$out/pkcs10.txt"
    "$here/key_update.sh" >"$out/key_update.txt"
else
    echo "skipped: openssl_certs.txt, pkcs10.txt and key_update.txt (no openssl)"
fi
echo "hmac.txt, frames.txt, frame.der, changes.txt, histories.txt, rules.txt, lines.txt, journals.txt, logs.txt,"
echo "inits.txt, near_certs.txt, neighbours.txt, asks.txt, wishes.txt and serves.txt are made"

jars=${BCJARS:-/usr/share/java}
path=$jars/bcprov.jar:$jars/bcutil.jar
if ! command -v javac >/dev/null || ! command -v java >/dev/null; then
    echo "skipped: LMS and ASN.1 (no JDK)"
    exit 0
fi
if [ ! -e "$jars/bcprov.jar" ] || [ ! -e "$jars/bcutil.jar" ]; then
    echo "skipped: LMS and ASN.1 ($jars has no bcprov.jar and bcutil.jar: Debian's libbcpkix-java)"
    exit 0
fi
classes=$(mktemp -d)
trap 'rm -rf "$classes"' EXIT
javac -cp "$path" -d "$classes" "$here/java/org/bouncycastle/pqc/crypto/lms/Inside.java" \
    "$here/java/LmsVectors.java" "$here/java/AsnVectors.java" "$here/java/CertVectors.java" \
    "$here/java/RequestVectors.java" "$here/java/HeaderVectors.java" "$here/java/MessageVectors.java" \
    "$here/java/Fixed.java" "$here/java/ProtectionVectors.java" "$here/java/TakeVectors.java" \
    "$here/java/ReplyVectors.java" "$here/java/BodyVectors.java"
java -Dstdout.encoding=UTF-8 -cp "$classes:$path" AsnVectors >"$out/asn.txt"
java -cp "$classes:$path" CertVectors >"$out/certs.txt"
java -cp "$classes:$path" RequestVectors >"$out/requests.txt"
java -cp "$classes:$path" HeaderVectors >"$out/headers.txt"
java -cp "$classes:$path" MessageVectors >"$out/messages.txt"
java -cp "$classes:$path" ProtectionVectors >"$out/protections.txt"
java -cp "$classes:$path" TakeVectors >"$out/takes.txt"
java -cp "$classes:$path" ReplyVectors >"$out/replies.txt"
java -cp "$classes:$path" BodyVectors >"$out/bodies.txt"
echo "asn.txt, certs.txt, requests.txt, headers.txt, messages.txt, protections.txt, takes.txt, replies.txt and bodies.txt are made"
for part in ots trees hss; do
    java -cp "$classes:$path" LmsVectors "$part" >"$out/lms_$part.txt"
done
python3 "$here/check_lms.py" "$out/lms_ots.txt" "$out/lms_trees.txt" "$out/lms_hss.txt"
