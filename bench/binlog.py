#!/usr/bin/env python3
"""Times binlog over 256 MiB of events of 1 KiB, in clear and ciphered, warm, beside `cat` and mariadb-binlog.

The logs have the format description of a MariaDB server and query events of 1024 bytes; the ciphered one is
made by the Python package cryptography and left out where it is missing. They are removed at the end. Each
program runs once to warm up and then five times; the least wall time is printed, with the MB (10^6 bytes) in
a second, and how many times cat's it is, and no figure where a program doesn't end with 0. mariadb-binlog
(Debian: mariadb-client) is timed over the log in clear, where it is found.

    bench/binlog.py [PROGRAM] [MARIADB-BINLOG]
"""
import os
import shutil
import struct
import subprocess
import sys
import tempfile
import time
import zlib

TOP = os.path.dirname(os.path.dirname(os.path.abspath(__file__)))
EVENTS, BODY = 262144, 1001
KEY = bytes(range(16))
NONCE = bytes(range(12))


def event(kind, place, body):
    """A plain event with its checksum, of time 0 and server 1."""
    length = 19 + len(body) + 4
    head = struct.pack("<IBIIIH", 0, kind, 1, length, (place + length) % 2**32, 0)
    return head + body + struct.pack("<I", zlib.crc32(head + body))


def encipher(cipher, algorithms, modes, place, plain):
    """The event text's cipher: CBC with tail of bytes 4 to the end, the length moved out of it."""
    bytes_ = bytearray(plain)
    length = bytes_[9:13]
    bytes_[9:13] = bytes_[0:4]
    iv = NONCE + struct.pack("<I", place % 2**32)
    text = bytes(bytes_[4:])
    whole = len(text) // 16 * 16
    cbc = cipher(algorithms.AES(KEY), modes.CBC(iv)).encryptor()
    done = cbc.update(text[:whole]) + cbc.finalize()
    rest = text[whole:]
    if rest:
        ecb = cipher(algorithms.AES(KEY), modes.ECB()).encryptor()
        mask = ecb.update(iv) + ecb.finalize()
        done += bytes(a ^ b for a, b in zip(rest, mask))
    out = bytearray(4) + bytearray(done)
    out[0:4] = out[9:13]
    out[9:13] = length
    return bytes(out)


def description():
    """The body of the format description in a server's log, which has a checksum."""
    with open(os.path.join(TOP, "crates/binlog/data/enc-crc.000002"), "rb") as file:
        log = file.read(4096)
    length = struct.unpack_from("<I", log, 4 + 9)[0]
    return log[4 + 19 : 4 + length - 4]


def query():
    """The body of a query event: thread, time, no database, no error, no status variables, and the text."""
    head = struct.pack("<IIBHH", 1, 0, 0, 0, 0) + b"\0"
    text = b"INSERT INTO t VALUES ('" + b"x" * BODY
    return (head + text)[: BODY - 2] + b"')"


def write(path, hide):
    """A log, whose events behind the start encryption go through `hide`, where there is one."""
    with open(path, "wb") as file:
        first = event(15, 4, description())
        file.write(b"\xfebin" + first)
        place = 4 + len(first)
        if hide:
            start = event(164, place, b"\x01" + struct.pack("<I", 1) + NONCE)
            file.write(start)
            place += len(start)
        body = query()
        for _ in range(EVENTS):
            plain = event(2, place, body)
            file.write(hide(place, plain) if hide else plain)
            place += len(plain)
    return place


def least(words):
    times = []
    for run in range(6):
        start = time.monotonic()
        done = subprocess.run(words, stdout=subprocess.DEVNULL, stderr=subprocess.PIPE)
        if done.returncode != 0:
            print(f"{words[0]} ended with {done.returncode}: {done.stderr[:200]!r}")
            return None
        if run:
            times.append(time.monotonic() - start)
    return min(times)


def tell(name, seconds, size, cat):
    if seconds is None:
        return
    print(f"{name} {seconds:.3f} s, {size / seconds / 1e6:.0f} MB/s, {seconds / cat:.1f} times cat")


def main():
    program = sys.argv[1] if len(sys.argv) > 1 else os.path.join(TOP, "crates/binlog/out/binlog")
    real = sys.argv[2] if len(sys.argv) > 2 else shutil.which("mariadb-binlog")
    folder = tempfile.mkdtemp(prefix="binlog-")
    try:
        plain = os.path.join(folder, "plain.000001")
        size = write(plain, None)
        cat = least(["cat", plain])
        tell("cat", cat, size, cat)
        tell("binlog, in clear", least([program, plain]), size, cat)
        if real:
            tell(f"{real}, in clear", least([real, plain]), size, cat)
        else:
            print("no mariadb-binlog here")
        os.remove(plain)
        try:
            from cryptography.hazmat.primitives.ciphers import Cipher, algorithms, modes
        except ImportError:
            print("no ciphered log: no package cryptography")
            return
        ciphered = os.path.join(folder, "ciphered.000001")
        size = write(ciphered, lambda place, event_: encipher(Cipher, algorithms, modes, place, event_))
        keys = os.path.join(folder, "keys.txt")
        with open(keys, "w") as file:
            file.write(f"1;{KEY.hex()}\n")
        cat = least(["cat", ciphered])
        tell("binlog, ciphered", least([program, "--key-file", keys, ciphered]), size, cat)
    finally:
        shutil.rmtree(folder)


if __name__ == "__main__":
    main()
