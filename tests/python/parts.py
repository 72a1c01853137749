"""What python/tilambok.py writes it reads back: frames, payloads, and a message that is cut and goes through a link. Ends with 0 only if all is so. See ./run."""

import random
import sys

from tilambok import Header, Link, Offer, Refused, Rpc, Short, Status, read_frame, read_rpc, rpc_form, send, write_frame, write_rpc

SERVICES = (0x00, 0x07, 0x0A, 0x0B, 0x0F)
WISH = bytes([32, 0, 0, 0, 2]) + b"protocolVersion\0" + bytes([6, 0, 0, 0]) + b"5.4.1\0\0"


def refusal(call) -> int:
    """The number with which a call is refused; 0 where it is not."""
    try:
        call()
    except Refused as refused:
        return refused.number
    return 0


def check_frames(chance: random.Random) -> None:
    payload = chance.randbytes(chance.randrange(1_489))
    version = chance.randrange(1, 6)
    message = 0 if version == 1 else chance.randrange(2**32)
    header = Header(version, 1, chance.choice(SERVICES), chance.randrange(256), chance.randrange(256), message, version > 1 and chance.random() < 0.5)
    frame = write_frame(header, payload)
    assert len(frame) == (8 if version == 1 else 12) + len(payload)
    assert read_frame(frame + b"behind") == (header, payload, len(frame))
    try:
        read_frame(frame[: max(8, len(frame) - 1)] if payload or version > 1 else frame[:7])
        raise AssertionError("a frame that is not all there was read")
    except Short as short:
        assert short.needed == (len(frame) if payload or version > 1 else 8)
    assert refusal(lambda: write_frame(Header(0, 1, 7, 0, 1), payload)) == 1
    assert refusal(lambda: read_frame(b"\x61" + frame[1:])) == 1


def check_payloads(chance: random.Random) -> None:
    form, version = chance.randrange(3), chance.randrange(2, 6)
    json, bulk = chance.randbytes(chance.randrange(300)), b"" if form == 0 else chance.randbytes(chance.randrange(300))
    kind, number_id = (chance.choice((0x00, 0x10, 0x20, 0xFF)), chance.choice((1, 2, 0xFFFFFF))) if form == 2 else (chance.randrange(3), chance.randrange(2**28))
    rpc = Rpc(json, bulk, kind, number_id, chance.randrange(2**32))
    message = write_rpc(form, version, rpc)
    assert len(message) == 12 + len(json) + len(bulk) and read_rpc(form, version, message) == rpc
    assert read_rpc(0, 1, write_rpc(0, 1, Rpc(json))) == Rpc(json)
    assert refusal(lambda: read_rpc(form, version, message[:11])) == 40


def check_message(chance: random.Random) -> None:
    link, message, chunk = Link(), chance.randbytes(chance.randrange(1, 3_000)), chance.randrange(50, 1_500)
    opened = link.call(write_frame(Header(1, 0, 0x07, 1, 0), WISH), Offer(hash=chance.randrange(2**32)))
    assert opened.status == Status.ACK
    session = read_frame(opened.written)[0].session
    answers = [link.call(frame) for frame in send(5, 0x0F, session, 9, chunk, message)]
    assert [answer.status for answer in answers[:-1]] == [Status.SILENT] * (len(answers) - 1)
    assert (answers[-1].status, answers[-1].service, answers[-1].written) == (Status.DELIVERED, 0x0F, message)


chance = random.Random(int(sys.argv[1]))
for _ in range(500):
    check_frames(chance)
    check_payloads(chance)
    check_message(chance)
assert [rpc_form(service) for service in (0x07, 0x0F, 0x00)] == [0, 1, 2] and refusal(lambda: rpc_form(0x0A)) == 10
assert refusal(lambda: Link(version=(6, 0, 0))) == 10 and refusal(lambda: Link(mtu=1_499)) == 10
