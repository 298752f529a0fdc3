# What the rules ask for: the files, their parts, the tree of the sums, and the memory of a job.
import math
import os
import shutil
import zlib
from functools import lru_cache
from glob import glob

from snakemake.common import Mode

RESULTS = config["results"]
LIST = f"{RESULTS}/parts.tsv"
# One merge takes at most so many tables.
MERGED = config["tables_per_merge"]
# The tree of the sums has at most so many levels below the whole, which is enough for a million parts in pairs.
LEVELS = 19
# The parts are counted in so many turns: the first ones in the tree, the next ones, and so on.
TURNS = 32
OPTIONS = ["-m", str(config["k"]), "--min-qual-char", str(config["least_quality"])]
OPTIONS += ["-C"] if config["both_strands"] else []


def files_of_reads():
    """The files that the names and patterns of `reads` stand for, each under its path with `_` in place of `/`."""
    files = {}
    patterns = config["reads"]
    for pattern in [patterns] if isinstance(patterns, str) else patterns:
        found = sorted(glob(pattern))
        if not found:
            raise WorkflowError(f"no file of reads: {pattern}")
        for path in found:
            name = path.replace(os.sep, "_")
            if files.setdefault(name, path) != path:
                raise WorkflowError(f"two files of reads have one name: {files[name]} and {path}")
    return files


FILES = files_of_reads()
for file, path in FILES.items():
    listed = f"{RESULTS}/parts/{file}.tsv"
    if os.path.exists(listed) and os.path.getmtime(path) > os.path.getmtime(listed):
        raise WorkflowError(f"{path} has changed since it was cut: remove {listed} to count it again")


# The figures: bytes of memory for each base, for each base of the longest read, and for each different k-mer; and bytes
# that every job has, with the buffers of its first thread, and for each further thread.
BASE, LONGEST, KMER = 0.4, 10, 28
JOB, THREAD = 50e6, 32e6


def number_of(text):
    """The number of a text such as 4600000, 4600k or 4.6M."""
    units = {"k": 1e3, "M": 1e6, "G": 1e9}
    text = str(text)
    return float(text[:-1]) * units[text[-1]] if text[-1] in units else float(text)


# At most so many k-mers are the genome's, and so many of each base of reads are new because a base is wrong.
RIGHT = number_of(config.get("genome_size", "inf")) * (1 if config["both_strands"] else 2)
WRONG = 1 - (1 - config["wrong_bases"]) ** config["k"]


def different(positions):
    """At most so many distinct k-mers begin at so many positions."""
    return min(positions, RIGHT + WRONG * positions)


def bases_of_a_part():
    """The most bases whose count fits in memory_per_job, but for 1 MB: a part may have a read more."""
    room = 1e6 * config["memory_per_job"] - JOB - THREAD * (config["threads"] - 1) - 1e6
    all_new = room / (BASE + KMER)
    genome_known = (room - KMER * RIGHT) / (BASE + KMER * WRONG) if RIGHT < math.inf else 0
    bases = int(max(all_new, genome_known))
    if bases < 1e6:
        given = f"{config['memory_per_job']} MB are too few for {config['threads']} threads"
        raise WorkflowError(f"memory_per_job: {given}")
    return bases


# What a part has at most: a number of reads where that is given, and of bases elsewhere.
if "reads_per_part" in config:
    UNIT, MOST = "reads", config["reads_per_part"]
else:
    UNIT, MOST = "bases", bases_of_a_part()


@lru_cache(maxsize=1)
def read_list(path, changed):
    """What the list of all parts has, where it was changed at that time: see parts_in_list."""
    with open(path) as listed:
        rows = [line.rstrip("\n").split("\t") for line in listed]
    parts = {(file, part): (int(bases), int(longest)) for file, part, reads, bases, longest in rows}
    return parts, list(parts)


def parts_in_list():
    """The bases and the longest read of each part, by its file and name; and the files and names in their order."""
    path = str(checkpoints.list_parts.get().output[0])
    return read_list(path, os.stat(path).st_mtime_ns)


def sum_of(first, last):
    """The table of the parts from `first` to `last`."""
    if first < last:
        return f"{RESULTS}/sums/{level_of(last - first + 1)}/{first}-{last}.kct"
    _, names = parts_in_list()
    file, part = names[first]
    return f"{RESULTS}/tables/{first * TURNS // len(names)}/{file}/{part}.kct"


def level_of(parts):
    """How many merges follow one another until so many parts are one table."""
    level, reached = 0, 1
    while reached < parts:
        level, reached = level + 1, reached * MERGED
    return level


def terms(first, last):
    """The tables whose sum is that of the parts from `first` to `last`, each of about as many parts."""
    parts = last - first + 1
    many = min(parts, MERGED)
    starts = [first + parts * term // many for term in range(many + 1)]
    return [sum_of(start, after - 1) for start, after in zip(starts, starts[1:])]


def terms_of_a_sum(wildcards):
    return terms(int(wildcards.first), int(wildcards.last))


def terms_of_the_whole(wildcards):
    return terms(0, len(parts_in_list()[1]) - 1)


def folder_and_file(wildcards):
    """The folder of a file's parts, which is removed when all are counted, and the file where it is not cut."""
    folder = f"{RESULTS}/parts/{wildcards.file}"
    return [folder, FILES[wildcards.file]] if wildcards.part == "whole" else [folder]


def reads_of_part(wildcards, input):
    return input[1] if wildcards.part == "whole" else f"{input[0]}/{wildcards.part}"


def megabytes(bytes, attempt):
    """A job that is started again gets more memory."""
    return attempt * math.ceil((JOB + bytes) / 1e6)


def memory_of_count(wildcards, attempt):
    parts, _ = parts_in_list()
    bases, longest = parts[wildcards.file, wildcards.part]
    reads = BASE * bases + LONGEST * longest
    return megabytes(THREAD * (config["threads"] - 1) + reads + KMER * different(bases), attempt)


def memory_of_tables(wildcards, attempt):
    """A merge, a histogram and statistics keep no rows of tables."""
    return megabytes(0, attempt)


def sample_of(path):
    """How many reads and bases begin a file, and how many of its bytes these take."""
    with open(path, "rb") as file:
        text = file.read(1 << 16)
        is_all = not file.read(1)
    size = len(text)
    if text.startswith(b"\x1f\x8b"):
        member = zlib.decompressobj(31)
        text = member.decompress(text)
        size -= len(member.unused_data)
        is_all = is_all and not member.unused_data
    lines = text.split(b"\n")
    # the last record is whole where the file ends with it
    if text.lstrip().startswith(b">"):
        titles = [number for number, line in enumerate(lines) if line.startswith(b">")]
        if not is_all and len(titles) > 1:
            lines = lines[: titles.pop()]
        reads = len(titles)
        bases = sum(len(line) for line in lines if not line.startswith(b">"))
    else:
        if not is_all:
            lines = lines[: (len(lines) - 1) // 4 * 4]
        reads = len(lines[1::4])
        bases = sum(map(len, lines[1::4]))
    return reads, bases, size if is_all else size * sum(len(line) + 1 for line in lines) / max(len(text), 1)


def text_of_size(bytes):
    """A number of bytes, in MB or GB."""
    return f"{bytes / 1e9:.1f} GB" if bytes >= 1e9 else f"{bytes / 1e6:.1f} MB"


def largest_at_once(positions, parts):
    """The most rows of tables that there are at once, while parts with so many positions are counted and summed."""
    if parts <= 1:
        return different(positions)
    many = min(math.ceil(parts), MERGED)
    term = different(positions / many)
    others = (many - 1) * term
    return max(others + largest_at_once(positions / many, parts / many), others + term + different(positions))


def plan():
    """What the run is going to need, as far as sizes and beginnings of the files show it."""
    reads = bases = cut = parts = 0
    for path in FILES.values():
        of_sample, bases_of_sample, bytes_of_sample = sample_of(path)
        size = os.path.getsize(path)
        times = size / bytes_of_sample if bytes_of_sample else 0
        reads += times * of_sample
        bases += times * bases_of_sample
        of_file = math.ceil(times * (of_sample if UNIT == "reads" else bases_of_sample) / MOST)
        parts += max(of_file, 1)
        cut += size if of_file > 1 else 0
    positions = max(bases - reads * (config["k"] - 1), 0)
    # a row has the k-mer, its count of some two digits, a blank and the end of the line
    row = config["k"] + 4
    whole = different(positions)
    tables = row * (largest_at_once(positions, parts) + positions / TURNS)
    folder = os.path.abspath(RESULTS)
    while not os.path.exists(folder):
        folder = os.path.dirname(folder)
    free = shutil.disk_usage(folder).free
    lines = [
        f"{len(FILES)} files with some {reads:,.0f} reads and {bases:,.0f} bases: some {parts} parts",
        f"a part has at most {MOST:,} {UNIT}",
        f"room on disk for parts: {text_of_size(cut)}",
        f"room on disk for tables and sums: {text_of_size(tables)}; {text_of_size(row * whole)} of it for the result",
        f"free on that disk: {text_of_size(free)}" + (", which is not enough" if cut + tables > free else ""),
    ]
    return "\n".join(f"kcount: {line}" for line in lines)


# Each job of a cluster reads this file again; the plan is printed by the command that was typed.
if workflow.mode == Mode.default:
    logger.info(plan())
