"""A head unit on a TCP port of this machine, one link for each connection: head_unit.py PORT [CONNECTIONS]. Port 0 is any free one; the port is printed."""

import socketserver
import sys

from tilambok import Link, Offer, Refused, Short, Status, read_frame

OFFER = Offer(guarantee=32, cap=64, hash=39_027)


def say(line: str) -> None:
    """Prints a line in one piece: each phone has a thread of its own, and between a text and its newline another's could come."""
    print(f"{line}\n", end="", flush=True)


class Phone(socketserver.BaseRequestHandler):
    """One connection: frames may come in pieces; a reply goes back, a message is printed."""

    def handle(self) -> None:
        link, waiting = Link(), b""
        while piece := self.request.recv(4_096):
            waiting += piece
            while waiting:
                try:
                    waiting = waiting[self.answer(link, waiting) :]
                except Short:
                    break
                except Refused:
                    return

    def answer(self, link: Link, waiting: bytes) -> int:
        """Answers the frame at the front; how many bytes it has. What is no frame at all ends the connection."""
        try:
            answer = link.call(waiting, OFFER)
        except Refused as refusal:
            say(f"refused with {refusal.number}")
            return read_frame(waiting)[2]
        if answer.status == Status.DELIVERED:
            say(f"service {answer.service:02x}: {len(answer.written)} bytes")
        elif answer.status != Status.SILENT:
            self.request.sendall(answer.written)
        return answer.consumed


with socketserver.ThreadingTCPServer(("127.0.0.1", int(sys.argv[1])), Phone) as server:
    say(f"port {server.server_address[1]}")
    for _ in range(int(sys.argv[2]) if len(sys.argv) > 2 else 2**31):
        server.handle_request()
