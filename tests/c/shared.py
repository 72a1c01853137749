"""Calls the library's functions through ctypes; the argument is the shared object. See ./shared."""

import ctypes
import sys

DONE, SHORT = 0, 128
BAD_VERSION, TOO_SMALL, NO_SUCH_FRAME = 1, 11, 26
FIELDS, LARGEST_FRAME = 16, 131_084
UNTOUCHED = 0xEEEEEEEE

library = ctypes.CDLL(sys.argv[1])
for name in ("read_frame", "write_header", "write_frame", "send", "rpc_form", "read_rpc", "write_rpc"):
    getattr(library, "tilambok_" + name).restype = ctypes.c_uint32


def call(name, *arguments):
    """The status and the value; numbers are (type, number), bytes go with their length, a bytearray is lent to be written."""
    lent = []
    for argument in arguments:
        if isinstance(argument, tuple):
            kind, number = argument
            lent.append(kind(number))
        else:
            kind = ctypes.c_char * max(len(argument), 1)
            lent += [kind.from_buffer(argument) if isinstance(argument, bytearray) and argument else kind(*bytes(argument)), ctypes.c_size_t(len(argument))]
    value = ctypes.c_uint32(UNTOUCHED)
    status = getattr(library, "tilambok_" + name)(*lent, ctypes.byref(value))
    return status, value.value


def bytes_of(*numbers):
    return [(ctypes.c_uint8, number) for number in numbers]


def words_of(*numbers):
    return [(ctypes.c_uint32, number) for number in numbers]


def check_frames():
    out, fields = bytearray(LARGEST_FRAME), bytearray(FIELDS)
    header = bytes_of(5, 0, 1, 7, 0, 1) + words_of(5, 9)
    assert call("write_frame", *header, b"hello", out) == (DONE, 17)
    assert out[:17] == bytes.fromhex("51070001000000050000000968656c6c6f")
    assert call("write_header", *header, out) == (DONE, 12)
    assert call("write_frame", *header, b"hello", bytearray(16)) == (TOO_SMALL, UNTOUCHED)
    assert call("read_frame", bytes(out[:17]), fields) == (DONE, 17)
    assert fields == bytes([5, 0, 1, 7, 0, 1, 12, 0, 0, 0, 0, 5, 0, 0, 0, 9])
    assert call("read_frame", bytes(out[:16]), fields) == (SHORT, 17)
    assert call("read_frame", b"\x61" + bytes(out[1:17]), fields) == (BAD_VERSION, UNTOUCHED)
    assert call("read_frame", bytes(out[:17]), bytearray(15)) == (TOO_SMALL, UNTOUCHED)


def check_sending():
    message, joined, k = bytes(range(250)), b"", 0
    while True:
        out = bytearray(LARGEST_FRAME)
        status, value = call("send", *bytes_of(5, 7, 1), *words_of(9, 100, k), message, out)
        if status != DONE:
            break
        joined += out[12:value] if k else b""
        k += 1
    assert (status, value, k) == (NO_SUCH_FRAME, UNTOUCHED, 4) and joined == message


def check_payloads():
    out, fields = bytearray(64), bytearray(16)
    assert call("rpc_form", *bytes_of(0x0F)) == (DONE, 1)
    assert call("rpc_form", *bytes_of(0x0A)) == (10, UNTOUCHED)
    assert call("write_rpc", *bytes_of(1, 5, 1), *words_of(1, 2, 2), b"{}", b"\xff\xee", out) == (DONE, 12)
    assert out[:16] == bytes.fromhex("1000000100000002000000027b7dffee")
    assert call("read_rpc", *bytes_of(1, 5), bytes(out[:16]), fields) == (DONE, 12)
    assert call("read_rpc", *bytes_of(0, 5), bytes(out[:16]), fields) == (44, UNTOUCHED)


check_frames()
check_sending()
check_payloads()
print("shared: 7 functions called from Python, every answer as promised")
