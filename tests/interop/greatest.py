"""Writes a message of 131,072 octets, the greatest that is read, to standard output."""

import sys

import handmade

for title, message in handmade.sizes():
    if title == "131072 octets":
        sys.stdout.buffer.write(message)
