"""What a call of the link costs from Python: one that is refused and one that replies, through python/tilambok.py, the least time of several rounds."""

import pathlib
import sys
import timeit

sys.dont_write_bytecode = True
sys.path.insert(0, str(pathlib.Path(__file__).resolve().parent.parent / "python"))

from tilambok import Header, Link, Refused, write_frame

CALLS, ROUNDS = 20_000, 7
# a session of version 5, with the payload of document 01's "5.4.1"
WISH = bytes([32, 0, 0, 0, 2]) + b"protocolVersion\0" + bytes([6, 0, 0, 0]) + b"5.4.1\0\0"

link = Link()
link.call(write_frame(Header(version=1, frame_type=0, service=0x07, info=1, session=0), WISH))
beat = write_frame(Header(version=5, frame_type=0, service=0x00, info=0, session=1))
closed = write_frame(Header(version=5, frame_type=1, service=0x07, info=0, session=9))


def refused() -> None:
    try:
        link.call(closed)
    except Refused:
        pass


for what, call in (("refuses", refused), ("replies", lambda: link.call(beat))):
    least = min(timeit.repeat(call, number=CALLS, repeat=ROUNDS)) / CALLS
    print(f"call from Python that {what}: {least * 1e6:.1f} microseconds")
