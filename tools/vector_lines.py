# The lines of the stored lists: a call with its arguments as text and its results from document01.py; and what the lists are built from.
import document01 as d
from document01 import CASE_A, ESCAPE, FLAG, State, bytes_of, frame_of

KINDS = {"pec": True, "plain": False}
FLAGS = bytes([FLAG])
GOOD = bytes.fromhex("0108090a5e")
GOOD_FRAME = frame_of(GOOD)


# One byte or address, as a field of two hex digits.
def byte(value):
    return None if value is None else bytes([value])


# The length of a packet, if there is one.
def length_of(packet):
    return None if packet is None else len(packet)


# A value as its field or fields of a line.
def field(value):
    if value is None or value == b"" or value == []:
        return "-"
    if isinstance(value, State):
        return f"{value.position} {value.count} {value.length} {field(value.stored.rstrip(bytes(1)))}"
    if isinstance(value, bytes):
        return value.hex()
    if isinstance(value, list):
        return ",".join(f"{place}:{field(packet)}" for place, packet in value)
    return str(value)


# One receiver step: consistent or not, number, length of a packet handed out, state.
def step_results(state, b):
    number, packet, later = d.step(state, b[0])
    return "yes" if d.consistent(state) else "no", number, length_of(packet), later


# I2C decode: the source address as two hex digits.
def i2c_decode_results(kind, data):
    number, source, payload = d.i2c_decode(KINDS[kind], data)
    return number, byte(source), payload


# USB decode: the packet's length stands before it.
def usb_decode_results(data):
    number, packet, remainder = d.usb_decode(data)
    return number, length_of(packet), packet, remainder


# Each call, from the line's arguments to the line's results.
CALLS = {
    "check": lambda data: (d.frame_check(data).to_bytes(2, "big"), byte(d.pec(data))),
    "pec": lambda data: (byte(d.pec(data)),),
    "frame": d.write_frame,
    "feed": d.feed,
    "step": step_results,
    "take": d.take,
    "i2c-encode": lambda own, destination, kind, payload, room: d.i2c_encode(own[0], destination[0], KINDS[kind], payload, room),
    "i2c-decode": i2c_decode_results,
    "usb-header": d.usb_header,
    "usb-decode": usb_decode_results,
    "usb-append": d.usb_append,
    "usb-walk": d.usb_walk,
}


# A vector's line: call, arguments, results.
def vector(call, *arguments):
    limit = 2048 if call in ("feed", "take", "usb-walk") else 600
    for value in arguments:
        if isinstance(value, bytes) and len(value) > limit or isinstance(value, int) and value > 99999:
            raise SystemExit(f"{call}: an argument beyond the format's limit")
    return " ".join([call, *map(field, arguments), "=", *map(field, CALLS[call](*arguments))])


# The bytes with the one at a place changed by xor.
def changed(data, place, by):
    return d.written(data, place, bytes([data[place] ^ by]))


# The bytes with their PEC behind them.
def with_pec(data):
    return data + bytes([d.pec(data)])


# A USB transfer of packets of these sizes.
def transfer_of(sizes):
    return b"".join(d.usb_packet(bytes_of(f"transfer {i}", n)) for i, n in enumerate(sizes))


# A state whose first stored bytes are these and whose next are filled up to a place, also beyond the stored length.
def filled(position, count, length, first, fill):
    rest = bytes_of(f"beyond {position} {count} {length}", fill)
    return State(position, count, length, (first + rest[len(first):] + bytes(259))[:259])


# The state after a stream, filled in the same way behind its stored length.
def state_after(stream, fill):
    state = d.feed(stream)[1]
    return filled(state.position, state.count, state.length, state.stored[:state.length], fill)


# The first packet of this length whose check bytes pass a test.
def packet_with_check(length, test):
    packets = (bytes_of(f"check search {i}", length) for i in range(1000000))
    return next(packet for packet in packets if test(d.check_bytes(packet)))


# Packets whose check has a flag or an escape byte: high, low, both.
MARKED_CHECKS = [packet_with_check(9, lambda check: check[i] == mark) for i in (0, 1) for mark in (FLAG, ESCAPE)] \
    + [packet_with_check(5, lambda check: check == both) for both in (b"\x7e\x7e", b"\x7d\x5e")]


# Frames that wrong senders make of a packet: check low byte first, complemented, both, escaped; count escaped; packet not escaped.
def wrong_senders(packet):
    frame, check = frame_of(packet), d.check_bytes(packet)
    head, body = frame[:3], d.escaped(packet)
    yield head + body + check[::-1] + FLAGS
    yield head + body + bytes(b ^ 0xFF for b in check) + FLAGS
    yield head + body + bytes(b ^ 0xFF for b in check[::-1]) + FLAGS
    yield head + body + d.escaped(check) + FLAGS
    yield head[:2] + d.escaped(head[2:]) + body + check + FLAGS
    yield head + packet + check + FLAGS


# A packet's frame alone: the packet is handed out on its last byte.
def whole_frame(packet):
    frame = frame_of(packet)
    if d.feed(frame)[0] != [(len(frame) - 1, packet)]:
        raise SystemExit(f"a whole frame was lost: {frame.hex()}")
    return vector("feed", frame)


# A stream, three flags, then frames: each of these is handed out, whatever went before.
def behind_flags(stream, packets):
    stream += FLAGS * 3 + b"".join(map(frame_of, packets))
    if [packet for _, packet in d.feed(stream)[0]][-len(packets):] != packets:
        raise SystemExit(f"a frame behind three flags was lost: {stream.hex()}")
    return vector("feed", stream)


# The consistent states at the boundaries of each position.
def consistent_states():
    for position in ("FrameSearch", "SerialRevision"):
        yield filled(position, 0, 0, b"", 0)
        yield filled(position, 5, 9, b"\x01\x05", 12)
        yield filled(position, 255, 259, b"\x7e", 259)
        yield filled(position, 7, 0, b"\x02", 4)
    for count, fill in ((0, 1), (0, 20), (200, 6), (255, 259)):
        yield filled("ByteCount", count, 1, b"\x01", fill)
    for position in ("Data", "DataEscaped"):
        for count, lengths in ((1, [2]), (2, [2, 3]), (5, [2, 5, 6]), (125, [126]), (126, [100]), (255, [2, 256])):
            for length in lengths:
                yield filled(position, count, length, bytes([1, count]), length + 4)
    for position, more in (("Check", 2), ("Check", 3), ("FrameEnd", 4)):
        for count in (1, 5, 254, 255):
            yield filled(position, count, count + more, bytes([1, count]), count + 8)
    for packet in (b"\x7e", CASE_A, bytes_of("agrees", 60), bytes_of("agrees", 255)):
        agreeing = state_after(frame_of(packet)[:-1], len(packet) + 9)
        yield agreeing
        for place, by in ((len(packet) + 2, 0x80), (len(packet) + 3, 0x01), (len(packet) + 1, 0x10)):
            yield agreeing._replace(stored=changed(agreeing.stored, place, by))


# The least and the most stored length that a position from Data on allows.
def allowed_lengths(position, count):
    if position in ("Data", "DataEscaped"):
        return 2, count + 1
    return (count + 2, count + 3) if position == "Check" else (count + 4, count + 4)


# The inconsistent states, each with what makes it so.
def inconsistent_states():
    for position in ("FrameSearch", "SerialRevision"):
        for count, length in ((0, 260), (256, 0), (5, 99999), (99999, 9), (256, 260)):
            yield f"{position}: length over 259 or count over 255", filled(position, count, length, b"\x01\x05", 9)
    for count, length in ((0, 0), (0, 2), (0, 259), (0, 260), (256, 1), (65536, 1), (0, 65537)):
        yield "ByteCount: length not 1 or count over 255", filled("ByteCount", count, length, b"\x01\x05", 9)
    for first in (0x00, 0x02, 0x7E, 0x81):
        yield "ByteCount: stored byte 0 not 01", filled("ByteCount", 0, 1, bytes([first]), 9)
    for position in ("Data", "DataEscaped", "Check", "FrameEnd"):
        for count in (1, 5, 255):
            least, most = allowed_lengths(position, count)
            for length in (0, least - 1, most + 1, 260, 99999):
                yield f"{position}: length one below, one above, far off", filled(position, count, length, bytes([1, count]), most + 1)
        for count in (1, 5, 255):
            most = allowed_lengths(position, count)[1]
            for first in ([0, count], [0x7E, count], [1, count ^ 1], [1, 0], [0, 0]):
                yield f"{position}: stored byte 0 not 01 or stored byte 1 not the count", filled(position, count, most, bytes(first), most)
        for length in range(6):
            yield f"{position}: count 0", filled(position, 0, length, b"\x01\x00", 8)
        for count, length in ((256, 2), (256, 258), (256, 260), (99999, 100), (261, 5), (261, 9)):
            yield f"{position}: count over 255", filled(position, count, length, bytes([1, count % 256]), 9)
