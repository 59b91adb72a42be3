#!/usr/bin/env python3
"""Times innochecksum over 1 GiB of valid pages, warm, beside `cat` of the file and the real tool.

The file has 65,536 pages of 16 KiB with right CRC-32C checksums and is removed at the end. Each program
runs once to warm up and then five times; the least wall time is printed, and how many times cat's it is.
The real innochecksum is timed where `innochecksum` of another path is found (Debian: mariadb-server-core).

    bench/innochecksum.py [PROGRAM] [REAL]
"""
import os
import shutil
import struct
import subprocess
import sys
import tempfile
import time

TOP = os.path.dirname(os.path.dirname(os.path.abspath(__file__)))
SIZE, PAGES = 16384, 65536


def table():
    entries = []
    for byte in range(256):
        for _ in range(8):
            byte = (byte >> 1) ^ (0x82F63B78 if byte & 1 else 0)
        entries.append(byte)
    return entries


TABLE = table()


def crc32c(data, register=0xFFFFFFFF):
    for byte in data:
        register = TABLE[(register ^ byte) & 255] ^ (register >> 8)
    return register ^ 0xFFFFFFFF


def of_number(bits, number):
    """What a page number changes in the checksum, which is linear in the bytes."""
    change = 0
    for bit in range(32):
        if number >> bit & 1:
            change ^= bits[bit]
    return change


def write(path):
    """Pages of one body in clear, each with its number and its checksum."""
    body = bytearray(os.urandom(SIZE))
    body[0:38] = bytes(38)
    body[24:26] = struct.pack(">H", 17855)
    body[34:38] = struct.pack(">I", 5)
    body[-8:-4] = bytes(4)
    first = bytearray(body)
    first[24:26] = struct.pack(">H", 8)
    first[38:42] = struct.pack(">I", 5)
    first[54:58] = struct.pack(">I", 0x15)
    first[-4:] = struct.pack(">I", crc32c(first[:-4]))
    base = crc32c(body[:-4])
    zero = crc32c(bytes(SIZE - 4))
    bits = []
    for bit in range(32):
        page = bytearray(SIZE - 4)
        page[4:8] = struct.pack(">I", 1 << bit)
        bits.append(crc32c(page) ^ zero)
    with open(path, "wb") as file:
        file.write(first)
        for number in range(1, PAGES):
            body[4:8] = struct.pack(">I", number)
            body[-4:] = struct.pack(">I", base ^ of_number(bits, number))
            file.write(body)


def least(words):
    times = []
    for run in range(6):
        start = time.monotonic()
        done = subprocess.run(words, stdout=subprocess.DEVNULL, stderr=subprocess.PIPE)
        if done.returncode != 0 and run == 0:
            print(f"{words[0]} ended with {done.returncode}: {done.stderr[:200]!r}")
        if run:
            times.append(time.monotonic() - start)
    return min(times)


def main():
    program = sys.argv[1] if len(sys.argv) > 1 else os.path.join(TOP, "crates/innochecksum/out/innochecksum")
    real = sys.argv[2] if len(sys.argv) > 2 else shutil.which("innochecksum")
    folder = tempfile.mkdtemp(prefix="innochecksum-")
    try:
        path = os.path.join(folder, "t.ibd")
        write(path)
        cat = least(["cat", path])
        print(f"cat {cat:.3f} s")
        own = least([program, path])
        print(f"innochecksum {own:.3f} s, {own / cat:.2f} times cat")
        if real:
            other = least([real, path])
            print(f"{real} {other:.3f} s, {other / cat:.2f} times cat; ours is {own / other:.2f} times it")
        else:
            print("no other innochecksum here")
    finally:
        shutil.rmtree(folder)


if __name__ == "__main__":
    main()
