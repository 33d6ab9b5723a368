#!/bin/sh
# Runs each command of `cmpca` with standard streams that are closed, and looks that no file stands in a stream's place: the journal and
# the key file hold after each run what they held before, or what the command did to them with its streams open.
# Words: the program, or none for the one that is built from crates/cmpca. Ends with the counts.
set -eu

here=$(cd "$(dirname "$0")" && pwd)
top=$(cd "$here/../.." && pwd)
program=${1:-$("$top/bench/build.sh")} || exit 0
case $program in /*) ;; *) program=$PWD/$program ;; esac

work=$(mktemp -d)
trap 'rm -rf "$work"' EXIT
cd "$work"
umask 077
passed=0
failed=0

# Counts a look: title, whether it is as told.
look() {
    if [ "$2" = yes ]; then
        passed=$((passed + 1))
    else
        failed=$((failed + 1))
        echo "not as told: $1"
    fi
}

cat >devices <<'DEVICES'
[[credential]]
kind = "mac"
reference = "dev-1"
secret = "7365637265742d31"
rights = ["enrol"]
DEVICES
sed s/dev-1/dev-2/ devices >more
printf 'no message' >message
cp "$here/../../examples/settings.toml" settings

# An authority with one device. Its two identifiers differ.
until [ "$(tail -c +33 key 2>/dev/null | head -c 16 | od -An -v -tx1)" != "$(tail -c 16 key 2>/dev/null | od -An -v -tx1)" ]; do
    head -c 96 /dev/urandom >key
done
"$program" start key init <settings >/dev/null
"$program" start key enlist <devices >/dev/null
printf 'untouched' >other
cp key key.before

# Runs a command over a copy of the journal with these streams closed: title, the streams, input, words.
closed() {
    title=$1 streams=$2 input=$3
    shift 3
    cp start journal
    status=0
    case $streams in
        in) "$program" "$@" <&- >out 2>err || status=$? ;;
        out) "$program" "$@" <"$input" >&- 2>err || status=$? ;;
        err) "$program" "$@" <"$input" >out 2>&- || status=$? ;;
        all) "$program" "$@" <&- >&- 2>&- || status=$? ;;
    esac
}

# Whether the journal still begins with what it held. Its last octet is the gate of the next record, which a change opens.
kept() {
    size=$(($(wc -c <start) - 1))
    if cmp -s -n "$size" journal start; then echo yes; else echo no; fi
}

# Whether two files are the same.
same() { if cmp -s "$1" "$2"; then echo yes; else echo no; fi; }

# Whether a status is among those that are told.
among() {
    for one in $2; do [ "$1" = "$one" ] && { echo yes; return; }; done
    echo no
}

# Each command, by its words, its input, and the statuses with input, output, error and all closed.
# `verify` and `show` change nothing; a change that is made with the output closed is whole.
try() {
    name=$1 input=$2 in=$3 out=$4 err=$5 all=$6
    shift 6
    for streams in in out err all; do
        eval "told=\$$streams"
        closed "$name" "$streams" "$input" "$@"
        look "$name, $streams closed: status $status, told $told" "$(among "$status" "$told")"
        look "$name, $streams closed: the journal's front" "$(kept)"
        look "$name, $streams closed: the key file" "$(same key key.before)"
        status=0
        "$program" journal key show >shown 2>/dev/null || status=$?
        look "$name, $streams closed: a journal that is whole behind it (show ends with $status)" "$(among "$status" 0)"
    done
}

try verify message 3 4 1 4 verify 7365637265742d31
try show /dev/null 0 4 0 4 journal key show
try take message 3 4 1 4 journal key take
try enlist more 3 4 0 4 journal key enlist
try dismiss /dev/null 0 4 0 4 journal key dismiss mac dev-1
try release /dev/null 1 4 1 4 journal key release 00
try deny /dev/null 1 4 1 4 journal key deny 00
try init settings 3 4 1 4 journal key init
try usage /dev/null 2 4 2 4 journal key frob

# `init` of a new journal, with each stream closed.
for streams in in out err all; do
    rm -f fresh
    case $streams in
        in) status=0; "$program" fresh key init <&- >out 2>err || status=$?; told=3 ;;
        out) status=0; "$program" fresh key init <settings >&- 2>err || status=$?; told=4 ;;
        err) status=0; "$program" fresh key init <settings >out 2>&- || status=$?; told=0 ;;
        all) status=0; "$program" fresh key init <&- >&- 2>&- || status=$?; told=4 ;;
    esac
    look "a new journal, $streams closed: status $status, told $told" "$(among "$status" "$told")"
    status=0
    "$program" fresh key show >shown 2>/dev/null || status=$?
    case $streams in
        in | all) told=8 ;;
        *) told=0 ;;
    esac
    look "a new journal, $streams closed: show ends with $status, told $told" "$(among "$status" "$told")"
done

# A closed stream is told on standard error, where that is open.
status=0
"$program" start key show >&- 2>err || status=$?
look "a closed output has its reason" "$(if grep -q '^cmpca: standard output: ' err; then echo yes; else echo no; fi)"
status=0
"$program" start key enlist <&- >out 2>err || status=$?
look "a closed input has its reason" "$(if grep -q '^cmpca: standard input: ' err; then echo yes; else echo no; fi)"
look "another file is as it was" "$(if [ "$(cat other)" = untouched ]; then echo yes; else echo no; fi)"

echo "$passed passed, $failed failed"
[ "$failed" = 0 ]
