#!/usr/bin/env python3
"""codec_vectors.py CAPTURES ORACLE..: writes crates/codec_vectors/stdin and stdout.

CAPTURES is a folder of tracks, each a folder with params.txt (the eight parameters), chunks.bin (chunks one after another) and chunks.txt (length and
number of each). ORACLE.. is a command that answers the line protocol of another implementation of the rules (`open SIDE SLOT ..`, `enc SLOT full|delta ROOM HEX`,
`rec SLOT ROOM HEX`, `group SIDE SLOT`, `close SIDE SLOT`, `new`) on standard input and output.

The input has two parts, each a command itself whose bytes are the commands for a fresh table: `r` those of a receiver, `e` those of an encoder."""
import sys

import codec_chunks
import codec_objects
from conversation import command


def main():
    captures, oracle = sys.argv[1], sys.argv[2:]
    parts = [(b"r", codec_objects.asked(oracle)), (b"e", codec_chunks.asked(oracle, captures))]
    with open("crates/codec_vectors/stdin", "wb") as f:
        f.write(b"".join(command(side, 0, 0, s.commands) for side, s in parts))
    with open("crates/codec_vectors/stdout", "w") as f:
        f.write("".join(line + "\n" for _, s in parts for line in s.lines))


main()
