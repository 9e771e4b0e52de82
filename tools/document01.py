# A second reading of document 01 in Python: check values, serial frame, receiver, taker, I2C, USB, and the marked cases A to N.
# Written from document 01 alone and without tables: each check value goes bit by bit.
# Every function that can refuse gives document 01's number first. None stands for what isn't given.
import hashlib
from collections import namedtuple

FLAG, ESCAPE, REVISION = 0x7E, 0x7D, 0x01
ESCAPED = {0x7E: 0x5E, 0x7D: 0x5D}
UNESCAPED = {0x5E: 0x7E, 0x5D: 0x7D}
State = namedtuple("State", "position count length stored")
FRESH = State("FrameSearch", 0, 0, bytes(259))


# A lent output before the call: place i holds (160 + i) mod 256.
def lent(room):
    return bytes((160 + i) % 256 for i in range(room))


# The output after bytes were written to it at a place; the others keep their content.
def written(out, place, data):
    return out[:place] + data + out[place + len(data):]


# Section 'Check values': the frame check, each byte low bit first.
def frame_check(data):
    register = 0xFFFF
    for byte in data:
        for i in range(8):
            feedback = (register ^ byte >> i) & 1
            register >>= 1
            if feedback:
                register ^= 0x8408
    return register


# The PEC, each byte high bit first.
def pec(data):
    register = 0
    for byte in data:
        for i in reversed(range(8)):
            feedback = (register >> 7 ^ byte >> i) & 1
            register = register << 1 & 0xFF
            if feedback:
                register ^= 0x07
    return register


# Section 'Serial frame': packet bytes escaped.
def escaped(packet):
    out = bytearray()
    for byte in packet:
        out += bytes([ESCAPE, ESCAPED[byte]]) if byte in ESCAPED else bytes([byte])
    return bytes(out)


# The two check bytes of a packet, high byte first.
def check_bytes(packet):
    return frame_check(bytes([REVISION, len(packet)]) + packet).to_bytes(2, "big")


# The frame of a packet of 1 to 255 bytes.
def frame_of(packet):
    return bytes([FLAG, REVISION, len(packet)]) + escaped(packet) + check_bytes(packet) + bytes([FLAG])


# The frame writer: number, length, output.
def write_frame(packet, room):
    if not 5 <= len(packet) <= 255:
        return 1, None, lent(room)
    frame = frame_of(packet)
    if room < len(frame):
        return 2, None, lent(room)
    return 0, len(frame), written(lent(room), 0, frame)


# Section 'Serial receiver': the states that are consistent.
def consistent(s):
    if s.length > 259 or s.count > 255:
        return False
    if s.position in ("FrameSearch", "SerialRevision"):
        return True
    if s.stored[0] != REVISION:
        return False
    if s.position == "ByteCount":
        return s.length == 1
    if s.count < 1 or s.stored[1] != s.count:
        return False
    if s.position in ("Data", "DataEscaped"):
        return 2 <= s.length <= s.count + 1
    if s.position == "Check":
        return s.length in (s.count + 2, s.count + 3)
    return s.length == s.count + 4


# The state with one more byte stored.
def store(s, b):
    return s._replace(stored=written(s.stored, s.length, bytes([b])), length=s.length + 1)


# A packet byte stored: Check once length is count + 2, else Data.
def store_data(s, b):
    s = store(s, b)
    return s._replace(position="Check" if s.length == s.count + 2 else "Data")


# The table, row by row: the state after byte b.
def after(s, b):
    if s.position == "FrameSearch":
        return s._replace(position="SerialRevision") if b == FLAG else s
    if s.position == "SerialRevision":
        position = {REVISION: "ByteCount", FLAG: "SerialRevision"}.get(b, "FrameSearch")
        return State(position, 0, 1, written(s.stored, 0, bytes([b])))
    if s.position == "ByteCount":
        if b == 0:
            return s._replace(position="FrameSearch", count=0)
        return store(s, b)._replace(position="Data", count=b)
    if s.position == "Data":
        if b == FLAG:
            return s._replace(position="SerialRevision")
        if b == ESCAPE:
            return s._replace(position="DataEscaped")
        return store_data(s, b)
    if s.position == "DataEscaped":
        if b in UNESCAPED:
            return store_data(s, UNESCAPED[b])
        return s._replace(position="FrameSearch")
    if s.position == "Check":
        s = store(s, b)
        return s._replace(position="FrameEnd" if s.length == s.count + 4 else "Check")
    return s._replace(position="FrameSearch" if b == FLAG else "SerialRevision")


# One receiver step: number, packet handed out, state.
def step(s, b):
    if not consistent(s):
        return 9, None, FRESH
    packet = None
    if s.position == "FrameEnd" and b == FLAG:
        stored_packet = s.stored[2:2 + s.count]
        if check_bytes(stored_packet) == s.stored[2 + s.count:4 + s.count]:
            packet = stored_packet
    return 0, packet, after(s, b)


# A stream fed to a consistent state: the packets, each with the place of the byte on which it is handed out, and the state.
def feed(stream, s=FRESH):
    packets = []
    for place, b in enumerate(stream):
        _, packet, s = step(s, b)
        if packet is not None:
            packets.append((place, packet))
    return packets, s


# The taker: number, reason, length of the packet, bytes taken, state, output.
def take(s, data, allowance, room):
    if not consistent(s):
        return 9, None, None, 0, FRESH, lent(room)
    if room < 255:
        return 2, None, None, 0, s, lent(room)
    taken = 0
    while True:
        if taken == len(data):
            return 0, "input-ended", None, taken, s, lent(room)
        if taken == allowance:
            return 0, "allowance-spent", None, taken, s, lent(room)
        _, packet, s = step(s, data[taken])
        taken += 1
        if packet is not None:
            return 0, "packet", len(packet), taken, s, written(lent(room), 0, packet)


# Section 'I2C': the bytes of a frame, with the PEC if wanted.
def i2c_frame(own, destination, with_pec, payload):
    frame = bytes([destination * 2, 0x0F, len(payload) + 1, own * 2 + 1]) + payload
    return frame + bytes([pec(frame)]) if with_pec else frame


# I2C encode: number, length, output.
def i2c_encode(own, destination, with_pec, payload, room):
    if own > 127 or destination > 127:
        return 4, None, lent(room)
    if len(payload) > 254 or room < len(payload) + (5 if with_pec else 4):
        return 3, None, lent(room)
    frame = i2c_frame(own, destination, with_pec, payload)
    return 0, len(frame), written(lent(room), 0, frame)


# I2C decode: number, source address, payload.
def i2c_decode(with_pec, data):
    if with_pec:
        if not data or data[-1] != pec(data[:-1]):
            return 5, None, None
        data = data[:-1]
    if len(data) < 4 or data[2] != len(data) - 4 + 1 or data[1] != 0x0F:
        return 5, None, None
    return 0, data[3] // 2, data[4:]


# Section 'USB': header and packet.
def usb_packet(packet):
    return bytes([0x1A, 0xB4, 0x00, len(packet) + 4]) + packet


# USB header for a packet of this size into a lent header: number, output.
def usb_header(size, room):
    if size > 251 or room != 4:
        return 6, lent(room)
    return 0, bytes([0x1A, 0xB4, 0x00, size + 4])


# USB decode: number, packet, remainder.
def usb_decode(data):
    if len(data) < 4 or data[:2] != b"\x1a\xb4" or data[3] < 4 or len(data) < data[3]:
        return 7, None, None
    return 0, data[4:data[3]], data[data[3]:]


# The builder: number, used count, output.
def usb_append(packet, used, room):
    if len(packet) > 251:
        return 6, used, lent(room)
    if used > room or used > 512 or min(room, 512) - used < len(packet) + 4:
        return 8, used, lent(room)
    return 0, used + len(packet) + 4, written(lent(room), used, usb_packet(packet))


# The walker from a place on until an answer yields no packet: packets with their header's place, number of that answer, place.
def usb_walk(transfer, place):
    packets = []
    while place < len(transfer):
        number, packet, _ = usb_decode(transfer[place:])
        if number:
            return packets, number, place
        packets.append((place, packet))
        place += len(packet) + 4
    return packets, 7 if place > len(transfer) else 0, place


# Bytes from SHA-256 of a label, the same at each run.
def bytes_of(label, length):
    blocks = (hashlib.sha256(f"{label} {i}".encode()).digest() for i in range(length // 32 + 1))
    return b"".join(blocks)[:length]


CASE_A = bytes.fromhex("010a09c87e")
CASE_A_FRAME = bytes.fromhex("7e0105010a09c87d5e2dba7e")
CASE_B = bytes.fromhex("7e0105010a09c87d5e2dbb7e")
CASE_E = bytes.fromhex("7e0100")
CASE_F = bytes.fromhex("7e01057d41")
CASE_N = bytes.fromhex("7e0105010a09c800" "7e7e" "7e0105010a09c87d5e2dba7e")


# The marked cases A to N as document 01 prints them; stops the run at the first that fails.
def marked_cases():
    def case(name, got, wanted):
        if got != wanted:
            raise SystemExit(f"marked case {name}: {got} is not {wanted}")

    case("A", write_frame(CASE_A, 12), (0, 12, CASE_A_FRAME))
    case("A", feed(CASE_A_FRAME)[0], [(11, CASE_A)])
    case("B", (feed(CASE_B)[0], feed(CASE_B)[1].position), ([], "FrameSearch"))
    case("C", [write_frame(bytes(n), 516)[0] for n in (4, 256, 5, 255)], [1, 1, 0, 0])
    case("C", [write_frame(bytes([FLAG]) * n, 516)[:2] for n in (5, 255)], [(0, 16), (0, 516)])
    case("D", [write_frame(CASE_A, n)[0] for n in (11, 12)], [2, 0])
    case("E", (feed(CASE_E)[0], feed(CASE_E)[1].position), ([], "FrameSearch"))
    case("F", (feed(CASE_F)[0], feed(CASE_F)[1].position), ([], "FrameSearch"))
    case("G", i2c_encode(0x20, 0x1D, False, CASE_A, 9), (0, 9, bytes.fromhex("3a0f0641010a09c87e")))
    case("H", i2c_decode(False, bytes.fromhex("3a0f0141")), (0, 0x20, b""))
    case("I", i2c_decode(False, bytes.fromhex("3a0f0241")), (5, None, None))
    case("J", usb_decode(bytes.fromhex("1ab40004")), (0, b"", b""))
    case("K", usb_decode(bytes.fromhex("1ab40003")), (7, None, None))
    case("L", [usb_header(n, 4) for n in (251, 252)], [(0, bytes.fromhex("1ab400ff")), (6, lent(4))])
    case("M", (frame_check(b"123456789"), pec(b"123456789")), (0x6F91, 0xF4))
    case("N", feed(CASE_N)[0], [])
