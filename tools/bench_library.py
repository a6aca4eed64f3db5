#!/usr/bin/env python3
"""Measures read_graph and write_graph alone: tools/bench_library.py PROGRAM FOLDER

PROGRAM is the built codec_rounds, FOLDER has graphs as NAME.hs2. A row is the CPU time of the least of thirty rounds in one process: until the
answer is there, as the yardsticks measure Java, whose collector they don't count; and with its memory given back, as they measure programs that
have no collector. MB/s counts the bytes of the graph's Hessian form, until the answer.
"""
import os
import subprocess
import sys

GRAPHS = ("ints", "objects", "deep", "text", "textmix", "binary")
ROUNDS = 30


def round_seconds(program, action, source):
    """The CPU seconds of the least round: until its answer, and until its memory is given back."""
    with open(source, "rb") as graph:
        done = subprocess.run([program, action, str(ROUNDS), "least"], stdin=graph, capture_output=True, text=True, check=False)
    if done.returncode:
        sys.exit(f"bench_library: {action} of {source} ended with status {done.returncode}")
    return [max(int(number), 1) / 1e9 for number in done.stdout.split()]


def main(words):
    if len(words) != 2:
        sys.exit("usage: tools/bench_library.py PROGRAM FOLDER")
    program, folder = words
    print("cell                   answer ms  freed ms      MB/s")
    for action, title in (("read", "decode"), ("write", "encode")):
        for name in GRAPHS:
            source = os.path.join(folder, f"{name}.hs2")
            answered, freed = round_seconds(program, action, source)
            rate = os.path.getsize(source) / 1e6 / answered
            print(f"{f'in process {title} {name}':24}{answered * 1e3:8.2f}{freed * 1e3:10.2f}{rate:10.1f}")


if __name__ == "__main__":
    main(sys.argv[1:])
