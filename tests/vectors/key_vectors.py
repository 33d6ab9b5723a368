"""Prints the public keys of a key file whose trees are the smallest (RFC 8554, 5.3, 6.1 and appendix A), by check_lms.py."""

from check_lms import public_key, u32

# seeds 00 to 1f and ff to e0, each with its identifier, 80 to 8f and 7f to 70
PARTS = [(bytes(range(32)), bytes(range(0x80, 0x90))), (bytes(range(0xFF, 0xDF, -1)), bytes(range(0x7F, 0x6F, -1)))]

if __name__ == "__main__":
    print("file:", "".join((seed + identifier).hex() for seed, identifier in PARTS))
    for seed, identifier in PARTS:
        print("key:", (u32(1) + public_key(5, 1, seed, identifier)).hex())
