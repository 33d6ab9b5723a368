# Sourced by scripts that compile with Bouncy Castle. Sets `path`, its class path; where it, a JDK or Python is missing,
# says so and ends the script.
jars=${BCJARS:-/usr/share/java}
path=$jars/bcpkix.jar:$jars/bcprov.jar:$jars/bcutil.jar
for tool in python3 javac java; do
    if ! command -v $tool >/dev/null; then
        echo "skipped: no $tool"
        exit 0
    fi
done
if [ ! -e "$jars/bcpkix.jar" ] || [ ! -e "$jars/bcprov.jar" ] || [ ! -e "$jars/bcutil.jar" ]; then
    echo "skipped: $jars has no bcpkix.jar, bcprov.jar and bcutil.jar (Debian's libbcpkix-java)"
    exit 0
fi
