"""A client of the link in Python's standard library alone (docs/LINK.md, "A client"): says HELLO in version 1 or 2, polls four times, and leaves.

    python3 link_client.py VERSION
"""
import socket
import sys
import time

ADDRESS, PORT, CARRIER, LPCN, VERSION = "127.0.0.1", 7101, 0, 1, int(sys.argv[1])
HELLO, RX, POLL, BYE, WELCOME, TX, DONE, REFUSED = 0x01, 0x02, 0x03, 0x05, 0x81, 0x82, 0x83, 0x84
LENGTHS = {WELCOME: 1, TX: 25 + VERSION, DONE: 0, REFUSED: 1}
REGISTER_1001 = bytes.fromhex("0EB49CDF34F2749CECBA5CB3B7C40E88138C9A38F96248E180")

def frame(kind, *body):
    return bytes([kind, len(body), *body])

def frames(stream):
    """Yields type and body of each frame that comes, however TCP cuts them."""
    octets = b""
    while piece := stream.recv(4096):
        octets += piece
        while len(octets) >= 2 and len(octets) >= 2 + octets[1]:
            kind, body, octets = octets[0], octets[2:2 + octets[1]], octets[2 + octets[1]:]
            if LENGTHS.get(kind) != len(body):
                sys.exit(f"not a frame of the controller: {kind:02X}{len(body):02X}")
            yield kind, body

def ten_octets(word):
    """The ten octets that a burst without wrong bits carries. Only for people: a base station transmits the word."""
    bits = f"{int.from_bytes(word, 'big'):0200b}"
    cells = [1 + 15 * row + column for row in range(9) for column in range(11)][3:83]
    return f"{int(''.join(bits[181 * cell % 196] for cell in cells), 2):020X}"

with socket.create_connection((ADDRESS, PORT), timeout=15) as stream:
    stream.setsockopt(socket.IPPROTO_TCP, socket.TCP_NODELAY, 1)
    stream.sendall(frame(HELLO, VERSION, CARRIER, LPCN >> 8, LPCN & 255))
    incoming, next_rx, next_tx = frames(stream), 0, 0
    kind, body = next(incoming, (None, None))
    if kind != WELCOME:
        sys.exit(f"REFUSED {body[0]}" if kind == REFUSED else "closed without WELCOME")
    print(f"WELCOME version {body[0]}")
    due = time.monotonic()
    for poll in range(4):
        if poll == 1:
            number = [next_rx] if VERSION == 2 else []
            stream.sendall(frame(RX, *number, 0, *REGISTER_1001))
            next_rx = (next_rx + 1) % 256
        stream.sendall(frame(POLL))
        for kind, body in incoming:
            if kind == DONE:
                print("DONE")
                break
            *number, slot = body[:-25]
            if VERSION == 2 and number != [next_tx]:
                sys.exit(f"TX {number[0]} came, and not TX {next_tx}")
            next_tx = (next_tx + 1) % 256
            print(f"TX slot {slot}: {ten_octets(body[-25:])}")
        else:
            sys.exit("closed by the controller")
        due += 0.06
        time.sleep(max(0, due - time.monotonic()))
    stream.sendall(frame(BYE))
    print("closed" if next(incoming, None) is None else "not closed")
