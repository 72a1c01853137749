"""Tilambok for Python: the proved C library through ctypes, with nothing but the standard library.

The library is the shared object that `python/build` makes of the proved archive (`rt lib` in crates/tilambok). Its path is the environment variable
TILAMBOK_LIBRARY, or target/libtilambok.so of this repository. What each function does, and each refusal's number, is in include/tilambok.h; here a refusal
is an exception, and bytes come and go as `bytes`.
"""

import ctypes
import os
import pathlib
from dataclasses import dataclass
from enum import IntEnum

STATE_SIZE = 2_688
POOL_SIZE = 65_536
LARGEST_FRAME = 131_084
_FIELDS = 16
_NO_SUCH_FRAME = 26


class Status(IntEnum):
    """What a call of the link answers, beside document 01's numbers of refusals."""

    SILENT = 0
    SHORT = 128
    ACK = 129
    NAK = 130
    HEARTBEAT_ACK = 131
    DELIVERED = 132


class Refused(Exception):
    """A call was refused: `number` is document 01's, and nothing that was lent has changed (24 and 25 drop the message that they name)."""

    def __init__(self, number: int) -> None:
        super().__init__(f"refused with {number}")
        self.number = number


class Short(Exception):
    """More bytes are needed: `needed` in all, those that are there included."""

    def __init__(self, needed: int) -> None:
        super().__init__(f"{needed} bytes are needed in all")
        self.needed = needed


@dataclass(frozen=True)
class Header:
    """A frame's header. In version 1 the message id is 0, since its header has none."""

    version: int
    frame_type: int
    service: int
    info: int
    session: int
    message: int = 0
    encrypted: bool = False


@dataclass(frozen=True)
class Offer:
    """What a call offers to a session or service that it may start: blocks set aside, the most that it may hold, and a hash."""

    guarantee: int = 0
    cap: int = 256
    hash: int = 0


@dataclass(frozen=True)
class Answer:
    """What a call of the link told: `written` is the reply to be sent (ACK, NAK, HEARTBEAT_ACK) or the message (DELIVERED, then with its service)."""

    status: Status
    consumed: int
    written: bytes = b""
    service: int | None = None


def _load() -> ctypes.CDLL:
    default = pathlib.Path(__file__).resolve().parent.parent / "target" / "libtilambok.so"
    library = ctypes.CDLL(os.environ.get("TILAMBOK_LIBRARY", str(default)))
    u8, u16, u32, size, data = ctypes.c_uint8, ctypes.c_uint16, ctypes.c_uint32, ctypes.c_size_t, ctypes.c_void_p
    number = ctypes.POINTER(u32)
    lent = [data, size]
    header = [u8] * 6 + [u32] * 2
    arguments = {
        "read_frame": lent * 2 + [number],
        "write_frame": header + lent * 2 + [number],
        "send": [u8, u8, u8, u32, u32, u32] + lent * 2 + [number],
        "rpc_form": [u8, number],
        "read_rpc": [u8, u8] + lent * 2 + [number],
        "write_rpc": [u8, u8, u8, u32, u32, u32] + lent * 3 + [number],
        "link_create": lent + [u8, u8, u8, u32],
        "link_call": lent * 4 + [u16, u16, u32, ctypes.POINTER(u8), number, number],
    }
    for name, types in arguments.items():
        function = getattr(library, "tilambok_" + name)
        function.argtypes, function.restype = types, u32
    return library


_library = _load()


def _lend(bytes_: bytes) -> tuple[ctypes.Array, int]:
    """Bytes to be read: a copy that ends with them, and never a null pointer."""
    return ctypes.create_string_buffer(bytes_, max(len(bytes_), 1)), len(bytes_)


def _done(status: int, value: int) -> int:
    if status == Status.SHORT:
        raise Short(value)
    if status != 0:
        raise Refused(status)
    return value


def read_frame(stream: bytes) -> tuple[Header, bytes, int]:
    """The frame at the front of the bytes: its header, its payload, and how many bytes it takes. Raises Short or Refused."""
    fields, value = (ctypes.c_uint8 * _FIELDS)(), ctypes.c_uint32()
    consumed = _done(_library.tilambok_read_frame(*_lend(stream), fields, _FIELDS, value), value.value)
    told = bytes(fields)
    header = Header(told[0], told[2], told[3], told[4], told[5], int.from_bytes(told[12:16], "big"), told[1] != 0)
    return header, stream[told[6] : consumed], consumed


def write_frame(header: Header, payload: bytes = b"") -> bytes:
    """A frame's bytes. Raises Refused."""
    out, value = (ctypes.c_uint8 * (len(payload) + 12))(), ctypes.c_uint32()
    numbers = (header.version, header.encrypted, header.frame_type, header.service, header.info, header.session, len(payload), header.message)
    _done(_library.tilambok_write_frame(*numbers, *_lend(payload), out, len(out), value), 0)
    return bytes(out)[: value.value]


def send(version: int, service: int, session: int, message_id: int, chunk: int, message: bytes) -> list[bytes]:
    """The frames of a message, cut as a phone does: `chunk` is the largest payload of one frame. Raises Refused."""
    frames: list[bytes] = []
    out, value = (ctypes.c_uint8 * LARGEST_FRAME)(), ctypes.c_uint32()
    whole = _lend(message)
    while True:
        status = _library.tilambok_send(version, service, session, message_id, chunk, len(frames), *whole, out, len(out), value)
        if status == _NO_SUCH_FRAME:
            return frames
        frames.append(bytes(out[: _done(status, value.value)]))


@dataclass(frozen=True)
class Rpc:
    """What is inside a message: the header's numbers (None without a header: the RPC form at version 1), JSON and bulk data."""

    json: bytes
    bulk: bytes = b""
    type: int | None = None
    id: int = 0
    number: int = 0


def rpc_form(service: int) -> int:
    """The form of a service's messages: 0 RPC, 1 bulk, 2 query. Raises Refused (10) where it has none."""
    value = ctypes.c_uint32()
    return _done(_library.tilambok_rpc_form(service, value), value.value)


def read_rpc(form: int, version: int, message: bytes) -> Rpc:
    """A message taken apart; JSON is not looked into. Raises Refused."""
    fields, value = (ctypes.c_uint8 * _FIELDS)(), ctypes.c_uint32()
    start = _done(_library.tilambok_read_rpc(form, version, *_lend(message), fields, _FIELDS, value), value.value)
    told = bytes(fields)
    if told[0] == 0:
        return Rpc(message)
    end = start + int.from_bytes(told[12:16], "big")
    return Rpc(message[start:end], message[end:], told[1], int.from_bytes(told[4:8], "big"), int.from_bytes(told[8:12], "big"))


def write_rpc(form: int, version: int, rpc: Rpc) -> bytes:
    """A message's bytes. Raises Refused."""
    out, value = (ctypes.c_uint8 * (12 + len(rpc.json) + len(rpc.bulk)))(), ctypes.c_uint32()
    numbers = (form, version, rpc.type or 0, rpc.id, rpc.number, len(rpc.json))
    start = _done(_library.tilambok_write_rpc(*numbers, *_lend(rpc.json), *_lend(rpc.bulk), out, len(out), value), value.value)
    return bytes(out)[: start + len(rpc.json) + len(rpc.bulk)]


class Link:
    """A module's link: state, pool and out are buffers of this object. One thread at a time; copies of `state` and `pool` go on as the original would."""

    def __init__(self, version: tuple[int, int, int] = (5, 4, 1), mtu: int = 131_084) -> None:
        """A link without sessions. Raises Refused (10) where the settings are out of range."""
        self.state = (ctypes.c_uint8 * STATE_SIZE)()
        self.pool = (ctypes.c_uint8 * POOL_SIZE)()
        self.out = (ctypes.c_uint8 * LARGEST_FRAME)()
        _done(_library.tilambok_link_create(self.state, STATE_SIZE, *version, mtu), 0)

    def call(self, stream: bytes, offer: Offer = Offer(), room: int = LARGEST_FRAME) -> Answer:
        """Answers the frame at the front of the bytes; `room` is how many bytes of `out` it may write. Raises Short or Refused."""
        service, consumed, value = ctypes.c_uint8(), ctypes.c_uint32(), ctypes.c_uint32()
        lent = (self.state, STATE_SIZE, self.pool, POOL_SIZE, *_lend(stream), self.out, min(room, LARGEST_FRAME))
        status = _library.tilambok_link_call(*lent, offer.guarantee, offer.cap, offer.hash, service, consumed, value)
        if 0 < status <= Status.SHORT:
            _done(status, value.value)
        written = ctypes.string_at(self.out, value.value)
        return Answer(Status(status), consumed.value, written, service.value if status == Status.DELIVERED else None)
