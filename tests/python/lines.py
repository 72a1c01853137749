"""The driver's lines `new` and `call` (docs/DRIVER.md), answered through python/tilambok.py: standard input to standard output. See ./run."""

import ctypes
import sys

from tilambok import LARGEST_FRAME, POOL_SIZE, Answer, Link, Offer, Refused, Short, Status

FILL = 0xEE
WORD = 2**32
BLOCK = 256
OWNERS, ROWS, ROW = 544, 800, 236
SERVICES = (0x00, 0x07, 0x0A, 0x0B, 0x0F)
EMPTY_POOL = bytes((i * 7 + 13) % 256 for i in range(POOL_SIZE))


def check_of(data: bytes, start: int = 7) -> int:
    """The check of docs/DRIVER.md, going on from a start."""
    check = start
    for byte in data:
        check = (check * 31 + byte) % WORD
    return check


def check_filled(count: int, start: int) -> int:
    """The same over so many bytes of the filling: by halves, so that a large buffer takes no time."""
    factor, term, check = 31, FILL, start
    while count:
        if count & 1:
            check = (check * factor + term) % WORD
        factor, term = factor * factor % WORD, (term * factor + term) % WORD
        count //= 2
    return check


class PoolCheck:
    """The pool's check, with the blocks' own kept: few change from call to call."""

    def __init__(self) -> None:
        self.blocks: list[bytes] = [b""] * BLOCK
        self.checks = [0] * BLOCK
        self.factor = pow(31, BLOCK, WORD)

    def of(self, pool: bytes) -> int:
        check = 7
        for number in range(BLOCK):
            block = pool[number * BLOCK : (number + 1) * BLOCK]
            if block != self.blocks[number]:
                self.blocks[number], self.checks[number] = block, check_of(block, 0)
            check = (check * self.factor + self.checks[number]) % WORD
        return check


def session_text(state: bytes, row: int) -> str:
    """A session of the driver's STATE, off the layout that include/tilambok.h tells."""
    bytes_ = state[ROWS + row * ROW : ROWS + (row + 1) * ROW]

    def number(at: int, width: int = 4) -> int:
        return int.from_bytes(bytes_[at : at + width], "little")

    owners = state[OWNERS : OWNERS + BLOCK]
    first = 1 + 5 * row
    running = "".join(f"+{name}={number(at)}" for name, flag, at in (("0a", 11, 21), ("0b", 12, 25)) if bytes_[flag])
    held = sum(first <= owner < first + 5 for owner in owners)
    messages = []
    for place, service in enumerate(SERVICES):
        if bytes_[6 + place]:
            numbers = "/".join(str(number(29 + place * 20 + 4 * i)) for i in range(5))
            blocks = ".".join(str(block) for block, owner in enumerate(owners) if owner == first + place)
            messages.append(f"{service:02x}/{numbers}/{blocks}")
    return f"{bytes_[0]},{number(2, 2)},{number(4, 2)},{bytes_[1]},{number(13)},07={number(17)}{running},{held},{'+'.join(messages) or '-'}"


def state_text(state: bytes) -> str:
    rows = sorted((state[ROWS + row * ROW], row) for row in range(8) if state[ROWS + row * ROW])
    return ";".join(session_text(state, row) for _, row in rows) or "-"


def answer_text(answer: Answer) -> str:
    if answer.status == Status.SILENT:
        return f"A {answer.consumed}"
    if answer.status == Status.DELIVERED:
        return f"D {answer.consumed} {answer.service:02x} {answer.written.hex() or '-'}"
    return f"W {answer.consumed} {answer.written.hex() or '-'}"


class Lines:
    """The link of the lines so far."""

    def __init__(self) -> None:
        self.link: Link | None = None
        self.pool_check = PoolCheck()

    def new(self, major: int, minor: int, patch: int, mtu: int) -> str:
        try:
            self.link = Link((major, minor, patch), mtu)
        except Refused as refusal:
            self.link = None
            return f"R {refusal.number}"
        ctypes.memmove(self.link.pool, EMPTY_POOL, POOL_SIZE)
        return "ok"

    def call(self, offer: Offer, room: int, stream: bytes) -> str:
        link = self.link
        if link is None:
            return "?"
        ctypes.memset(link.out, FILL, LARGEST_FRAME)
        written = b""
        try:
            answer = link.call(stream, offer, room)
            text, written = answer_text(answer), answer.written
        except Short as short:
            text = f"S {short.needed}"
        except Refused as refusal:
            text = f"R {refusal.number}"
        rest = LARGEST_FRAME - len(written)
        assert ctypes.string_at(link.out, LARGEST_FRAME)[len(written) :] == bytes([FILL]) * rest, "a call wrote past its bytes"
        out_check = check_filled(room - len(written), check_of(written))
        return f"{text} out={out_check} pool={self.pool_check.of(bytes(link.pool))} {state_text(bytes(link.state))}"

    def answer(self, line: str) -> str:
        command, *words = line.split(" ")
        if command == "new":
            return self.new(*map(int, words))
        guarantee, cap, hash_, room, digits = words
        return self.call(Offer(int(guarantee), int(cap), int(hash_)), int(room), b"" if digits == "-" else bytes.fromhex(digits))


lines = Lines()
for line in sys.stdin:
    print(lines.answer(line.rstrip("\n")))
