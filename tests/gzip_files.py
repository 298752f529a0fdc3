#!/usr/bin/env python3
"""Counts gzip files of many writers, and what is left of one where it is cut or a bit of it is turned:
    tests/gzip_files.py
Each is counted, where `gzip -dc` decompresses it, as its text is, and else refused as broken or cut short. It needs
bin/kcount and gzip; files of pigz, bgzip and zopfli are made where these are there.
"""

import gzip
import itertools
import os
import random
import shutil
import subprocess
import sys
import tempfile
import zlib
from concurrent.futures import ThreadPoolExecutor

TOP = os.path.dirname(os.path.dirname(os.path.abspath(__file__)))
KCOUNT = f"{TOP}/bin/kcount"
COUNT = [KCOUNT, "count", "-m", "5", "--print", "dump", "--column"]
SHORT, BROKEN = "kcount: 72: gzip cut short, source 1\n", "kcount: 71: broken gzip, source 1\n"


def run(words, data=b""):
    ran = subprocess.run(words, input=data, capture_output=True, check=False)
    return ran.returncode, ran.stdout, ran.stderr.decode()


def member(text, level=9, strategy=zlib.Z_DEFAULT_STRATEGY, flags=0, fields=b""):
    """Returns a member of this text, with these flags and optional fields in its header."""
    packer = zlib.compressobj(level, zlib.DEFLATED, -15, 8, strategy)
    header = bytes([31, 139, 8, flags, 1, 2, 3, 4, 0, 3]) + fields
    if flags & 2:
        header += (zlib.crc32(header) & 0xFFFF).to_bytes(2, "little")
    trailer = zlib.crc32(text).to_bytes(4, "little") + (len(text) & 0xFFFFFFFF).to_bytes(4, "little")
    return header + packer.compress(text) + packer.flush() + trailer


def reads(count, seed):
    """Returns so many made-up reads, as FASTQ."""
    chance = random.Random(seed)
    lines = []
    for number in range(count):
        length = chance.randrange(20, 120)
        bases = "".join(chance.choices("ACGT", k=length))
        quality = "".join(chance.choices("IIIIF:,#", k=length))
        lines.append(f"@read{number} of a sample\n{bases}\n+\n{quality}\n")
    return "".join(lines).encode()


def good(folder, text):
    """Gives the name and the bytes of many gzip files of this text."""
    for level in range(10):
        yield f"level {level}", member(text, level)
    for name in ("FILTERED", "HUFFMAN_ONLY", "RLE", "FIXED"):
        yield name, member(text, 6, getattr(zlib, f"Z_{name}"))
    extra = b"\x05\x00AB\x01\x00x"
    fields = {4: extra, 8: b"reads.fq\0", 16: b"a comment\0", 2: b"", 0: b""}
    for chosen in itertools.product((0, 4), (0, 8), (0, 16), (0, 2)):
        yield f"fields {chosen}", member(text, 6, flags=sum(chosen), fields=b"".join(fields[it] for it in chosen))
    half = len(text) // 2
    yield "two members", member(text[:half]) + member(text[half:], 1)
    yield "members of a byte", b"".join(member(text[at : at + 1]) for at in range(200)) + member(text[200:])
    yield "empty members", member(b"") + member(text) + member(b"") * 3
    yield "zeros behind", member(text) + bytes(1000)
    path = f"{folder}/text"
    with open(path, "wb") as file:
        file.write(text)
    for words in (["gzip", "-1"], ["gzip", "-6"], ["gzip", "-9"], ["pigz", "-9"], ["bgzip"], ["zopfli"]):
        if shutil.which(words[0]):
            yield " ".join(words), run([*words, "-c", path])[1]


def changed(whole):
    """Gives each front of the file, and the file with each of its bits turned, with what may be answered."""
    for end in range(2, len(whole)):
        yield f"its first {end} bytes", whole[:end], [SHORT]
    for at, bit in itertools.product(range(2, len(whole)), range(8)):
        bytes_ = bytearray(whole)
        bytes_[at] ^= 1 << bit
        yield f"byte {at} with bit {bit} turned", bytes(bytes_), [SHORT, BROKEN]


def wanted(data, faults):
    """Returns what may be answered of a file: the count of its text, where gzip decompresses it, or a fault."""
    status, text, _ = run(["gzip", "-dc"], data)
    return [run(COUNT, text)] if status == 0 else [(1, b"", it) for it in faults]


def differs(case):
    name, data, answers = case
    got = run(COUNT, data)
    return None if got in answers else f"{name}: {got[0]}, {len(got[1])} bytes, {got[2]!r}, and not {answers}"


def cases(folder):
    large, small = reads(3000, 1), reads(2, 2)[:200]
    for text in (large, b">r\nACGTACGT\n", b""):
        plain = run(COUNT, text)
        for name, data in good(folder, text):
            yield f"{len(text)} bytes, {name}", data, [plain]
    yield "nothing", b"", [run(COUNT, b"")]
    yield "garbage behind", member(large) + b"x", [(1, b"", BROKEN)]
    yield "garbage behind zeros", member(large) + bytes(9) + b"x", [(1, b"", BROKEN)]
    yield "gzip in gzip", member(member(large)), [(1, b"", "kcount: 1: bad start, source 1, line 1\n")]
    yield "31 alone", b"\x1f", [(1, b"", "kcount: 1: bad start, source 1, line 1\n")]
    text = b">r1\nACGTTGCATGTCGCATGATGCATGAGAGCT\n>r2\nTTGACCAGTAGACAGATATTAGACACAGATTA\n" + small[:0]
    whole = gzip.compress(text, mtime=0) + member(b">r3\nACGTACGTAC\n", 0)
    for name, data, faults in changed(whole):
        # (bit 1 of the flags asks for a check sum of the header, which some versions of gzip don't know)
        if name != "byte 3 with bit 1 turned":
            yield name, data, wanted(data, faults)


def main():
    if not os.path.exists(KCOUNT):
        sys.exit("no bin/kcount: run make build first")
    with tempfile.TemporaryDirectory() as folder, ThreadPoolExecutor(4) as pool:
        found = list(pool.map(differs, cases(folder)))
    wrong = [it for it in found if it]
    for it in wrong[:20]:
        print(f"gzip: {it}")
    print(f"gzip: {len(found)} files counted or refused, {len(wrong)} of them otherwise than gzip decompresses them")
    return bool(wrong)


if __name__ == "__main__":
    sys.exit(main())
