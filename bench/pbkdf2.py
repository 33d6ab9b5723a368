"""Times the program's check of a message with 200,000 rounds beside hashlib.pbkdf2_hmac, in turns."""

import hashlib
import subprocess
import sys
import time

ROUNDS = 200_000
TURNS = 5
SECRET = b"secret-1"
# A pkiconf under PBMAC1 with the salt 00 to 07 and 200,000 iterations; its MAC by Python's hashlib and hmac
MESSAGE = bytes.fromhex(
    "3081813056020102a4023000a4023000a149304706092a864886f70d01050e303a302a06092a864886f70d01050c301d04080001020304"
    "0506070203030d40300c06082a864886f70d02090500300c06082a864886f70d02090500b3020500a023032100094ec409155c222a23f0"
    "7b1468733c61bbd297746ba0f26800426240b8174f7b")


def seconds(action) -> float:
    start = time.perf_counter()
    action()
    return time.perf_counter() - start


def main() -> int:
    command = [sys.argv[1], "verify", SECRET.hex()]

    def verify() -> None:
        run = subprocess.run(command, input=MESSAGE, capture_output=True, timeout=120)
        if run.stdout != b"protection verified\n":
            sys.exit(f"{run.stdout!r}, status {run.returncode}")

    def derive() -> None:
        hashlib.pbkdf2_hmac("sha256", SECRET, bytes(range(8)), ROUNDS, 32)

    turns = [(seconds(verify), seconds(derive)) for _ in range(TURNS)]
    ours, others = min(turn[0] for turn in turns), min(turn[1] for turn in turns)
    print(f"PBKDF2-HMAC-SHA-256, {ROUNDS} rounds, the least of {TURNS} turns")
    print(f"  cmpca verify, start and end of the process included  {1000 * ours:8.1f} ms  {1e9 * ours / ROUNDS:6.0f} ns a round")
    print(f"  hashlib.pbkdf2_hmac (OpenSSL)                        {1000 * others:8.1f} ms  {1e9 * others / ROUNDS:6.0f} ns a round")
    print(f"  cmpca / hashlib                                      {ours / others:8.2f}")
    return 0


if __name__ == "__main__":
    sys.exit(main())
