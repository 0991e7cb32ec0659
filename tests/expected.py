"""The files `stdin` and `stdout` of a program under crates/: written, or with --check compared with what would be written."""
import pathlib
import sys

from walker import write_number

CRATES = pathlib.Path(__file__).resolve().parent.parent / "crates"
BUFFER = 65536              # the bytes that a program reads at a time


def in_blocks(parts, most):
    """The parts of an input in blocks, at most so many as the program reads. In front of a block stands how many parts it has, and
    behind it zeros."""
    blocks, size = [[]], 0
    for part in parts:
        size += len(part)
        if size + 5 > BUFFER:
            blocks.append([])
            size = len(part)
        blocks[-1].append(part)
    assert len(blocks) <= most, len(blocks)
    filled = [write_number(len(block)) + b"".join(block) for block in blocks]
    assert max(map(len, filled)) <= BUFFER
    return b"".join(block.ljust(BUFFER, b"\0") for block in filled[:-1]) + filled[-1]


def keep(program, stdin, stdout):
    for name, content in (("stdin", stdin), ("stdout", stdout)):
        path = CRATES / program / name
        if sys.argv[1:] != ["--check"]:
            path.write_bytes(content)
        elif path.read_bytes() != content:
            sys.exit("%s is not what tests/%s.py makes" % (path, program))
