# The list that is wrong on purpose: good lines with one result changed, and lines that are not of the form.
import document01 as d
from document01 import CASE_A, CASE_A_FRAME, FRESH
from vector_lines import FLAGS, GOOD_FRAME, changed, filled, state_after, transfer_of, vector

# A change of one field: text is the new field, a number n means that the field's byte n is changed, a function makes the new field.
STATE = [("the position", "FrameEnd"), ("the count", lambda text: str(int(text) + 1)), ("the stored length", lambda text: str(int(text) + 1)),
         ("a stored byte", 3), ("the last stored byte left out", lambda text: text[:-2]), ("a stored byte too many", lambda text: text + "01")]
PACKETS = [("a byte of a packet", lambda text: text[:-1] + ("1" if text[-1] == "0" else "0")), ("a packet's place", lambda text: "1" + text),
           ("the last packet left out", lambda text: text[:text.rindex(",")]), ("a packet too many", lambda text: text + ",40:01"),
           ("no packet", "-"), ("two packets in the other order", lambda text: ",".join(reversed(text.split(","))))]


# The changes of a state whose position is this result.
def of_state(place):
    return [(place + min(i, 3), what, change) for i, (what, change) in enumerate(STATE)]


# The changes of the packets, which are the first result.
def of_packets():
    return [(0, what, change) for what, change in PACKETS]


# The good lines, each with its changes: the result's place, what is wrong, the change.
def wrong_results():
    middle, end = state_after(CASE_A_FRAME[:8], 9), state_after(CASE_A_FRAME[:11], 12)
    inconsistent = filled("Data", 5, 7, b"\x01\x05", 9)
    two = transfer_of([5, 9])
    i2c = d.i2c_frame(0x20, 0x1D, False, CASE_A)
    yield vector("check", b"123456789"), [(0, "frame check complemented", "906e"), (0, "frame check low byte first", "916f"), (1, "PEC", "f5")]
    yield vector("pec", b"123456789"), [(0, "PEC", "f5")]
    yield vector("frame", CASE_A, 15), [
        (0, "number", "2"), (1, "length", "11"), (2, "a byte written", 7), (2, "a byte not written", 14),
        (2, "the last byte left out", lambda text: text[:-2])]
    yield vector("frame", CASE_A, 11), [(0, "number of a refusal", "1"), (1, "a length at a refusal", "12"), (2, "a byte written at a refusal", 0)]
    yield vector("feed", CASE_A_FRAME + GOOD_FRAME), of_packets() + of_state(1)
    yield vector("feed", d.CASE_N), [(0, "a packet where none is handed out", "21:010a09c87e")]
    yield vector("step", middle, b"\x5e"), [(0, "consistent", "no"), (1, "number", "9"), (2, "a length without a packet", "5"), *of_state(3)]
    yield vector("step", end, FLAGS), [(2, "length of a packet", "4"), (2, "no length", "-")]
    yield vector("step", inconsistent, FLAGS), [
        (0, "inconsistent", "yes"), (1, "number of a refusal", "0"), (3, "position not the fresh state's", "Data"),
        (6, "a stored byte not the fresh state's", "01")]
    yield vector("take", middle, CASE_A_FRAME[8:] + FLAGS, 9, 256), [
        (0, "number", "2"), (1, "reason", "input-ended"), (2, "length", "6"), (3, "taken", "5"), *of_state(4),
        (8, "a byte written", 4), (8, "a byte not written", 5)]
    yield vector("take", FRESH, CASE_A_FRAME[:5], 5, 255), [
        (1, "reason, the second that holds", "allowance-spent"), (2, "a length without a packet", "0"), (8, "a byte written without a packet", 0)]
    yield vector("take", FRESH, CASE_A_FRAME, 5, 255), [(1, "reason", "packet"), (3, "taken", "6")]
    yield vector("take", inconsistent, CASE_A_FRAME, 20, 254), [
        (0, "2 before 9", "2"), (1, "a reason at a refusal", "packet"), (3, "a byte taken at a refusal", "1"),
        (4, "position not the fresh state's", "Data")]
    yield vector("i2c-encode", b"\x20", b"\x1d", "pec", CASE_A, 12), [
        (0, "number", "3"), (1, "length", "9"), (2, "a byte written", 0), (2, "the PEC", 9), (2, "a byte not written", 11)]
    yield vector("i2c-encode", b"\x80", b"\x1d", "plain", CASE_A, 3), [(0, "3 before 4", "3"), (2, "a byte written at a refusal", 2)]
    yield vector("i2c-decode", "plain", i2c), [(0, "number", "5"), (1, "source", "41"), (2, "a byte of the payload", 2), (2, "no payload", "-")]
    yield vector("i2c-decode", "plain", i2c[:-1]), [
        (0, "number of a refusal", "0"), (1, "a source at a refusal", "20"), (2, "a payload at a refusal", "010a09c8")]
    yield vector("usb-header", 251, 4), [(0, "number", "6"), (1, "a byte written", 3)]
    yield vector("usb-header", 5, 5), [(0, "number of a refusal", "0"), (1, "a byte written at a refusal", 0)]
    yield vector("usb-decode", two), [
        (0, "number", "7"), (1, "length", "9"), (2, "a byte of the packet", 4), (3, "a byte of the remainder", 12), (3, "no remainder", "-")]
    yield vector("usb-decode", b"\x1a\xb4\x00\x03"), [(0, "number of a refusal", "0"), (1, "a length at a refusal", "0")]
    yield vector("usb-append", CASE_A, 9, 20), [
        (0, "number", "8"), (1, "used", "9"), (2, "a byte written", 13), (2, "a byte not written, before", 8), (2, "a byte not written, behind", 18)]
    yield vector("usb-append", bytes(252), 5, 4), [(0, "8 before 6", "8"), (1, "used after a refusal", "0")]
    yield vector("usb-walk", two, 0), [*of_packets(), (1, "number", "7"), (2, "place", "9")]
    yield vector("usb-walk", two, 23), [(1, "number of a place beyond", "0"), (2, "place", "22")]


# Lines that are not of the form, and what is wrong with each.
def wrong_forms():
    good, step = vector("frame", CASE_A, 15), vector("step", FRESH, FLAGS)
    yield "a call that isn't one", good.replace("frame", "frames")
    yield "a call in capitals", good.replace("frame", "FRAME")
    yield "the call alone", "frame"
    yield "an argument too few", good.replace(" 15 =", " =")
    yield "an argument too many", good.replace(" 15 =", " 15 15 =")
    yield "a result too few", good[:good.rindex(" ")]
    yield "a result too many", good + " 0"
    yield "an odd number of hex digits", good.replace("c87e 15", "c87 15")
    yield "a capital hex digit", good.replace("c87e 15", "C87e 15")
    yield "a sign that is no hex digit", good.replace("c87e 15", "c87g 15")
    yield "no =", good.replace(" = ", " ")
    yield "two =", good.replace(" = ", " = = ")
    yield "two spaces", good.replace(" 15 ", "  15 ")
    yield "a space at the line's start", " " + good
    yield "a space at the line's end", good + " "
    yield "a tab between fields", good.replace(" 15 ", "\t15 ")
    yield "a number with a leading zero", good.replace(" 15 ", " 015 ")
    yield "a number that is hex", good.replace(" 15 ", " f ")
    yield "a number over 99999", good.replace(" 15 ", " 100000 ")
    yield "a position that isn't one", step.replace("step FrameSearch", "step Framesearch")
    yield "a byte of three digits", step.replace(" 7e = ", " 07e = ")
    yield "a state without its stored length", step.replace(" 0 0 - 7e", " 0 - 7e")
    yield "260 stored bytes", step.replace(" 0 0 - 7e", " 0 0 " + "01" * 260 + " 7e")
    yield "a zero at the end of the stored bytes", step.replace(" 0 0 - 7e", " 0 0 0100 7e")
    yield "2049 bytes", vector("pec", bytes(1)).replace(" 00 ", " " + "00" * 2049 + " ")
    yield "a room of 2049 bytes", good.replace(" 15 ", " 2049 ")
    yield "a size over 99999", vector("usb-header", 251, 4).replace(" 251 ", " 100000 ")
    yield "a kind that isn't one", vector("i2c-decode", "plain", b"\x3a\x0f\x01\x41").replace("plain", "none")
    yield "an address of one digit", vector("i2c-encode", b"\x20", b"\x1d", "pec", b"", 5).replace(" 20 ", " 2 ")


# A field changed in one stated way.
def changed_field(text, change):
    if isinstance(change, int):
        return changed(bytes.fromhex(text), change, 0x01).hex()
    return change if isinstance(change, str) else change(text)


# List 7: lines that are wrong on purpose, and a right one at the end.
def wrong():
    yield "# good lines with one result changed"
    for good, changes in wrong_results():
        arguments, results = good.split(" = ")
        for place, what, change in changes:
            fields = results.split(" ")
            old, fields[place] = fields[place], changed_field(fields[place], change)
            if fields[place] == old:
                raise SystemExit(f"nothing is wrong: {what}: {good}")
            yield f"# {arguments.split(' ')[0]}: {what}"
            yield f"{arguments} = {' '.join(fields)}"
    yield "# lines that are not of the form"
    for what, line in wrong_forms():
        yield f"# {what}"
        yield line
    yield "# the one line that is right"
    yield vector("frame", CASE_A, 12)
