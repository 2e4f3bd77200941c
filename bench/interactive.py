#!/usr/bin/env python3
"""Talks with a settlement program over pipes that stay open, and checks every answer.

    interactive.py PROGRAM

Each line is written only when the answer to the one before it has been read, so a program that
waits for more input before it answers is found out by the time limit. The answers that are right
stand in this file, written by hand from the rules. Status 0 where all is well, 1 where not.
"""

import os
import select
import subprocess
import sys
import time

LIMIT = 10.0  # seconds that the program has for an answer
QUIET = 0.1  # seconds in which an answer that must not come would have come
MEMORY = 32 * 1024  # KiB that the program may hold at most
LONG = 64  # MiB of the longest line

# Lines, in order, each with its answer.
TALK = [
    # Nothing is held at first; account 0 may be told.
    (b"0A000001", b"000000000000000000"),
    (b"0A010000", b"000000000000000000"),
    (b"0A000307", b"000000000000000000"),
    (b"0A010107", b"000000000000000000"),
    # Pay in and out, told in between; small letters do as well.
    (b"0101000100000000000F4240", b"00"),
    (b"0a010001", b"0000000000000F4240"),
    (b"0A010101", b"000000000000000000"),
    (b"0A000001", b"000000000000000000"),
    (b"0201000100000000000f4241", b"FF0F"),
    (b"02010001000000000000000f", b"00"),
    (b"0A010001", b"0000000000000F4231"),
    (b"0201000100000000000F4231", b"00"),
    (b"0A010001", b"000000000000000000"),
    (b"020100010000000000000001", b"FF0F"),
    (b"01000307000000abcDEF0123", b"00"),
    (b"0a000307", b"00000000ABCDEF0123"),
    (b"0A000306", b"000000000000000000"),
    (b"0A000207", b"000000000000000000"),
    (b"02000307000000ABCDEF0123", b"00"),
    # Fields out of their range, in the order in which they are asked.
    (b"0102000100000000000F4240", b"FF0A"),
    (b"01FFFFFFFFFFFFFFFFFFFFFF", b"FF0A"),
    (b"0200040100000000000F4240", b"FF0B"),
    (b"0201020100000000000F4240", b"FF0B"),
    (b"020004000000000000000000", b"FF0B"),
    (b"0101000000000000000F4240", b"FF0C"),
    (b"0101000800000000000F4240", b"FF0C"),
    (b"010100FF0000000000000000", b"FF0C"),
    (b"0201000000000000000F4240", b"FF0C"),
    (b"010100010000000000000000", b"FF0D"),
    (b"01010001000000E8D4A51001", b"FF0D"),
    (b"01010001FFFFFFFFFFFFFFFF", b"FF0D"),
    (b"010100018000000000000001", b"FF0D"),
    (b"020100010000000000000000", b"FF0D"),
    (b"02010001000000E8D4A51001", b"FF0D"),
    (b"02010001000000E8D4A51000", b"FF0F"),
    (b"0A020000", b"FF0A"),
    (b"0A800000", b"FF0A"),
    (b"0A000400", b"FF0B"),
    (b"0A010200", b"FF0B"),
    (b"0A000008", b"FF0C"),
    (b"0A0100FF", b"FF0C"),
    # Lines that are no frame.
    (b"", b"FF50"),
    (b"0", b"FF50"),
    (b"0A01000", b"FF50"),
    (b"0A0100010", b"FF50"),
    (b"0A01000G", b"FF50"),
    (b"0A01000g", b"FF50"),
    (b"0A01/001", b"FF50"),
    (b"0A01:001", b"FF50"),
    (b"@A010001", b"FF50"),
    (b"0`010001", b"FF50"),
    (b"0A010001\r", b"FF50"),
    (b"0A01000\r", b"FF50"),
    (b"\r", b"FF50"),
    (b"\r\r", b"FF50"),
    (b" 0A010001", b"FF50"),
    (b"0A010001 ", b"FF50"),
    (b"0A 01 00 01 ", b"FF50"),
    (b"0A01\t001", b"FF50"),
    (b"0x0A010001", b"FF50"),
    (b"0A01\x00001", b"FF50"),
    (b"\x00\x00", b"FF50"),
    (b"\xb0A010001", b"FF50"),
    (b"\xff\xfe\x80\x81", b"FF50"),
    (b"\xc4\x97\xc5\xa1", b"FF50"),
    (b"FFZZ", b"FF50"),
    # Too long, by one digit, by one byte, by far; then the longest, of a code that is offered, and
    # of one that is not.
    (b"0A010001" + b"0" * 69, b"FF50"),
    (b"0A010001" + b"0" * 70, b"FF50"),
    (b"FF" * 39, b"FF50"),
    (b"0A010001" * 100_000, b"FF50"),
    (b"0A010001" + b"0" * 68, b"FF52"),
    (b"FF" * 38, b"FF51"),
    # Codes that are not offered, and lengths that do not fit.
    (b"00", b"FF51"),
    (b"0C", b"FF51"),
    (b"10", b"FF51"),
    (b"a0", b"FF51"),
    (b"FF", b"FF51"),
    (b"00010001", b"FF51"),
    (b"FF0100010000000000000001", b"FF51"),
    (b"01", b"FF52"),
    (b"02", b"FF52"),
    (b"0A", b"FF52"),
    (b"0a", b"FF52"),
    (b"0A0100", b"FF52"),
    (b"0A01000100", b"FF52"),
    (b"0A0100010000000000000001", b"FF52"),
    (b"0A020000FF", b"FF52"),
    (b"01010001", b"FF52"),
    (b"0101000100000000000001", b"FF52"),
    (b"01010001000000000000000100", b"FF52"),
    (b"02010001", b"FF52"),
    (b"0201000100000000000001", b"FF52"),
    (b"02010001000000000000000100", b"FF52"),
    (b"03", b"FF52"),
    (b"03012D01", b"FF52"),
    (b"03012D010101", b"FF52"),
    (b"03002D0008000000", b"FF52"),
    (b"04", b"FF52"),
    (b"0400000001", b"FF52"),
    (b"04000000014300000000000000000A0100000000000001F40000012D20202020022D202020", b"FF52"),
    (b"04" + b"00" * 36, b"FF52"),
    (b"04000000014300000000000000000A0100000000000001F40000012D20202020022D2020202020", b"FF50"),
    (b"05", b"FF52"),
    (b"0500000001", b"FF52"),
    (b"05000000010101", b"FF52"),
    (b"06", b"FF52"),
    (b"06000001", b"FF52"),
    (b"060000000101", b"FF52"),
    # None of these has changed anything.
    (b"0A010001", b"000000000000000000"),
]

# Codes that a later unit offers; now they are refused as codes.
LATER = [b"07", b"08", b"09", b"0B"]
TALK += [(code, b"FF51") for code in LATER]



def trade(
    number,
    class_and_security="4300",
    quantity="000000000000000A",
    currency="01",
    amount="00000000000001F4",
    day="0000",
    seller="012D20202020",
    buyer="022D20202020",
):
    fields = class_and_security + quantity + currency + amount + day + seller + buyer
    return f"04{number:08X}{fields}".encode()


# Terms, trades, consents and cancels. Member 1 has its main category with the custodian 1, member 2
# with 2; member 3 has its category C with 3 for the securities and 4 for the cash.
TRADES = [
    # Nothing is set and nothing is on the book at first.
    (trade(1), b"FF1B"),
    (b"050000000101", b"FF32"),
    (b"050000000000", b"FF32"),
    (b"0600000001", b"FF32"),
    (b"0600000000", b"FF32"),
    # Terms: member, category, then the custodians.
    (b"03012D0101", b"00"),
    (b"03022D0202", b"00"),
    (b"0303430304", b"00"),
    (b"03102D0707", b"00"),
    (b"03002D0101", b"FF28"),
    (b"03112D0101", b"FF28"),
    (b"03FF000000", b"FF28"),
    (b"0300630000", b"FF28"),
    (b"0301630101", b"FF29"),
    (b"0301200808", b"FF29"),
    (b"0301AD0101", b"FF29"),
    (b"0301000101", b"FF29"),
    (b"03012D0001", b"FF2A"),
    (b"03012D0100", b"FF2A"),
    (b"03012D0801", b"FF2A"),
    (b"03012D0108", b"FF2A"),
    (b"03012DFF01", b"FF2A"),
    # A trade on the book, consents of the giver 1 and the payer 2, and its end.
    (b"04000000014300000000000000000A0100000000000001F40000012D20202020022D20202020", b"00"),
    (b"050000000103", b"FF33"),
    (b"050000000100", b"FF33"),
    (b"050000000201", b"FF32"),
    (b"050000000101", b"00"),
    (b"050000000101", b"FF34"),
    (b"050000000102", b"00"),
    (b"050000000102", b"FF34"),
    (b"050000000101", b"FF34"),
    (b"050000000107", b"FF33"),
    (b"0600000002", b"FF32"),
    (b"0600000001", b"00"),
    (b"0600000001", b"FF32"),
    (b"050000000101", b"FF32"),
    # The number is above every number accepted so far, also of those that have left.
    (trade(0), b"FF14"),
    (trade(1), b"FF14"),
    (trade(1, "0000", seller="000000000000", buyer="000000000000"), b"FF14"),
    (trade(2), b"00"),
    (trade(2), b"FF14"),
    (trade(1), b"FF14"),
    # Each field at its ends and beyond; what is refused does not count as a number.
    (trade(0xFFFFFFFF, "4200"), b"FF15"),
    (trade(0xFFFFFFFF, "4500"), b"FF15"),
    (trade(0xFFFFFFFF, "6304"), b"FF15"),
    (trade(0xFFFFFFFF, "4304"), b"FF16"),
    (trade(0xFFFFFFFF, "43FF", quantity="0000000000000000"), b"FF16"),
    (trade(0xFFFFFFFF, quantity="0000000000000000", currency="02"), b"FF17"),
    (trade(0xFFFFFFFF, quantity="000000E8D4A51001"), b"FF17"),
    (trade(0xFFFFFFFF, quantity="8000000000000001"), b"FF17"),
    (trade(0xFFFFFFFF, currency="02", amount="0000000000000000"), b"FF18"),
    (trade(0xFFFFFFFF, currency="FF"), b"FF18"),
    (trade(0xFFFFFFFF, amount="0000000000000000", day="001F"), b"FF19"),
    (trade(0xFFFFFFFF, amount="000000E8D4A51001"), b"FF19"),
    (trade(0xFFFFFFFF, amount="FFFFFFFFFFFFFFFF"), b"FF19"),
    (trade(0xFFFFFFFF, day="001F", seller="004358585858"), b"FF1A"),
    (trade(0xFFFFFFFF, day="0100"), b"FF1A"),
    (trade(0xFFFFFFFF, day="FFFF"), b"FF1A"),
    (trade(3, "4403", quantity="000000E8D4A51000", amount="000000E8D4A51000", day="001E"), b"00"),
    (
        trade(4, quantity="0000000000000001", currency="00", amount="0000000000000001", day="0001"),
        b"00",
    ),
    # A party: its category, its terms, its clearing field; all of the seller, then of the buyer.
    (trade(5, seller="002058585858"), b"FF1C"),
    (trade(5, seller="01632B303031"), b"FF1C"),
    (trade(5, seller="002D58585858"), b"FF1B"),
    (trade(5, seller="112D20202020"), b"FF1B"),
    (trade(5, seller="FF4320202020"), b"FF1B"),
    (trade(5, seller="032D20202020"), b"FF1B"),
    (trade(5, seller="034F56303031"), b"FF1B"),
    (trade(5, seller="044320202020"), b"FF1B"),
    (trade(5, seller="012D76303031"), b"FF1D"),
    (trade(5, seller="012D58303031", buyer="000020202020"), b"FF1D"),
    (trade(5, seller="012D56202020"), b"FF1D"),
    (trade(5, seller="012D5630312F"), b"FF1D"),
    (trade(5, seller="012D563A3031"), b"FF1D"),
    (trade(5, seller="012D20303031"), b"FF1D"),
    (trade(5, seller="012D00000000"), b"FF1D"),
    (trade(5, seller="012D52304131"), b"FF1D"),
    (trade(5, seller="012D52303031"), b"FF1E"),
    (trade(5, seller="012D54393939"), b"FF1E"),
    (trade(5, seller="012D56303030"), b"FF1F"),
    (trade(5, seller="012D56303038"), b"FF1F"),
    (trade(5, seller="012D56323537", buyer="002020202020"), b"FF1F"),
    (trade(5, seller="012D56303130"), b"FF1F"),
    (trade(5, buyer="022020202020"), b"FF1C"),
    (trade(5, buyer="002D20202020"), b"FF1B"),
    (trade(5, buyer="024358303031"), b"FF1D"),
    (trade(5, buyer="024354303031"), b"FF1E"),
    (trade(5, buyer="024356393939"), b"FF1F"),
    # Who gives and who pays: the giver is 3, by its category, and the payer 7, by the main one.
    (trade(5, seller="034320202020", buyer="104920202020"), b"00"),
    (b"050000000504", b"FF33"),
    (b"050000000503", b"00"),
    (b"050000000507", b"00"),
    # The other way round the giver is 7 and the payer 4.
    (trade(6, seller="104D20202020", buyer="034320202020"), b"00"),
    (b"050000000603", b"FF33"),
    (b"050000000604", b"00"),
    (b"050000000607", b"00"),
    # The clearing field goes before the terms.
    (trade(7, seller="034356303035", buyer="024F56303036"), b"00"),
    (b"050000000703", b"FF33"),
    (b"050000000702", b"FF33"),
    (b"050000000705", b"00"),
    (b"050000000706", b"00"),
    # One that gives and pays consents once to both.
    (trade(8, seller="022D20202020", buyer="022D20202020"), b"00"),
    (b"050000000802", b"00"),
    (b"050000000802", b"FF34"),
    (b"050000000801", b"FF33"),
    # New terms are for new trades; a category of its own goes before the main one.
    (trade(9), b"00"),
    (b"03012D0506", b"00"),
    (b"0302430306", b"00"),
    (trade(10, buyer="024320202020"), b"00"),
    (b"050000000905", b"FF33"),
    (b"050000000901", b"00"),
    (b"050000000902", b"00"),
    (b"050000000A01", b"FF33"),
    (b"050000000A02", b"FF33"),
    (b"050000000A03", b"FF33"),
    (b"050000000A05", b"00"),
    (b"050000000A06", b"00"),
    # Every byte of a number counts.
    (b"050000010A05", b"FF32"),
    (b"050001000A05", b"FF32"),
    (b"058000000A05", b"FF32"),
    (b"060000010A", b"FF32"),
    (b"060001000A", b"FF32"),
    (b"068000000A", b"FF32"),
    # A cancel takes one movement and leaves the others.
    (b"0600000008", b"00"),
    (b"0600000008", b"FF32"),
    (b"050000000902", b"FF34"),
    (b"050000000705", b"FF34"),
    (b"050000000301", b"00"),
    (trade(8), b"FF14"),
    (trade(10), b"FF14"),
    # None of these has moved an amount.
    (b"0A000001", b"000000000000000000"),
    (b"0A010102", b"000000000000000000"),
    # Numbers go to the end; after the last there is none.
    (trade(0x7FFFFFFF), b"00"),
    (trade(0x80000000), b"00"),
    (trade(10), b"FF14"),
    (trade(0xFFFFFFFF), b"00"),
    (trade(0xFFFFFFFF), b"FF14"),
    (b"06FFFFFFFF", b"00"),
    (trade(0xFFFFFFFF), b"FF14"),
    (b"058000000005", b"00"),
    (b"0680000000", b"00"),
    (b"0680000000", b"FF32"),
]

# The book has room for 128 movements.
ROOM = [(b"03012D0101", b"00"), (b"03022D0202", b"00")]
ROOM += [(trade(number), b"00") for number in range(1, 129)]
NO_ROOM = [
    (trade(129), b"FF20"),
    (trade(128), b"FF14"),
    (trade(129, buyer="022D56303038"), b"FF1F"),
    (b"050000008002", b"00"),
    (b"050000008002", b"FF34"),
    (b"050000008102", b"FF32"),
    (b"050000000101", b"00"),
    (b"0600000081", b"FF32"),
    (b"0600000040", b"00"),
    (trade(64), b"FF14"),
    (trade(129), b"00"),
    (trade(130), b"FF20"),
    (b"050000004001", b"FF32"),
    (b"050000008101", b"00"),
    (b"0600000001", b"00"),
    (b"0600000080", b"00"),
    (trade(130), b"00"),
    (trade(131), b"00"),
    (trade(132), b"FF20"),
    (b"050000004101", b"00"),
    (b"03032D0303", b"00"),
]

# The most that may be held of one kind: a thousand times the most that may be moved, here in two
# accounts.
FILL = [(b"01000203000000E8D4A51000", b"00"), (b"01000204000000E8D4A51000", b"00")] * 500
FULL = [
    (b"010002030000000000000001", b"FF0E"),
    (b"010002070000000000000001", b"FF0E"),
    (b"01000207000000E8D4A51001", b"FF0D"),
    (b"01000203000000E8D4A51000", b"FF0E"),
    (b"0A000203", b"000001C6BF52634000"),
    (b"0A000204", b"000001C6BF52634000"),
    (b"0A000205", b"000000000000000000"),
    (b"010001030000000000000001", b"00"),
    (b"020002040000000000000002", b"00"),
    (b"010002070000000000000003", b"FF0E"),
    (b"010002070000000000000002", b"00"),
    (b"010002070000000000000001", b"FF0E"),
    (b"0A000204", b"000001C6BF52633FFE"),
    (b"0A000207", b"000000000000000002"),
    (b"020002070000000000000003", b"FF0F"),
    (b"020001030000000000000001", b"00"),
]


class Wrong(Exception):
    pass


def short(line):
    return repr(line if len(line) <= 80 else line[:60] + b"...")[1:]


class Program:
    """A program that runs, with pipes to its input and from its output."""

    def __init__(self, path):
        self.process = subprocess.Popen(
            [path], stdin=subprocess.PIPE, stdout=subprocess.PIPE, bufsize=0
        )
        self.input = self.process.stdin.fileno()
        self.output = self.process.stdout.fileno()
        os.set_blocking(self.input, False)
        self.unread = b""

    def __enter__(self):
        return self

    def __exit__(self, *_):
        self.process.kill()
        self.process.wait()
        self.process.stdin.close()
        self.process.stdout.close()

    def read(self, limit):
        """Reads what comes within the limit; false where nothing comes, or the output has ended."""
        if not select.select([self.output], [], [], max(0.0, limit))[0]:
            return False
        some = os.read(self.output, 1 << 16)
        self.unread += some
        return bool(some)

    def write(self, data):
        """Writes all, and reads what comes meanwhile, so that neither side has to wait."""
        data = memoryview(data)
        end = time.monotonic() + LIMIT
        while data:
            left = end - time.monotonic()
            readable, writable, _ = select.select([self.output], [self.input], [], max(0.0, left))
            if readable and not self.read(0):
                raise Wrong("it ended its output before its input ended")
            if writable:
                try:
                    data = data[os.write(self.input, data) :]
                except BrokenPipeError:
                    raise Wrong("it ended before its input ended") from None
            elif left <= 0:
                raise Wrong("it does not read its input")

    def answer(self, line):
        """The next answer line, without its line end."""
        end = time.monotonic() + LIMIT
        while b"\n" not in self.unread:
            if not self.read(end - time.monotonic()):
                late = time.monotonic() >= end
                why = f"within {LIMIT:g} seconds" if late else "and its output has ended"
                raise Wrong(f"no answer to {short(line)} {why}")
        answer, self.unread = self.unread.split(b"\n", 1)
        return answer

    def expect(self, line, right):
        answer = self.answer(line)
        if answer != right:
            raise Wrong(f"{short(line)} is answered {short(answer)}, right is {short(right)}")

    def ask(self, line, right):
        self.write(line + b"\n")
        self.expect(line, right)

    def quiet(self, after):
        if self.unread or self.read(QUIET):
            raise Wrong(f"an answer too many after {after}: {short(self.unread)}")

    def memory(self):
        """The most memory that it has held so far, in KiB, where the system tells."""
        try:
            with open(f"/proc/{self.process.pid}/status") as status:
                fields = dict(field.split(":", 1) for field in status)
            return int(fields["VmHWM"].split()[0])
        except (OSError, KeyError):
            return None

    def end(self, rest=()):
        """Ends the input; the answers in rest may still come, and then the end with status 0."""
        self.process.stdin.close()
        end = time.monotonic() + LIMIT
        while self.read(end - time.monotonic()):
            pass
        try:
            status = self.process.wait(timeout=max(0.0, end - time.monotonic()))
        except subprocess.TimeoutExpired:
            raise Wrong("it goes on after its input has ended") from None
        right = b"".join(answer + b"\n" for answer in rest)
        if self.unread != right:
            raise Wrong(f"at the end it answers {short(self.unread)}, right is {short(right)}")
        if status != 0:
            raise Wrong(f"it ended with status {status}")


def one_at_a_time(program):
    for line, right in TALK:
        program.ask(line, right)
    program.quiet("the talk")
    program.end()


def many_at_once(program):
    program.write(b"".join(line + b"\n" for line, _ in FILL))
    for line, right in FILL:
        program.expect(line, right)
    for line, right in FULL:
        program.ask(line, right)
    program.quiet("the talk")
    program.end()


def trades(program):
    for line, right in TRADES:
        program.ask(line, right)
    program.quiet("the talk")
    program.end()


def full_book(program):
    program.write(b"".join(line + b"\n" for line, _ in ROOM))
    for line, right in ROOM:
        program.expect(line, right)
    for line, right in NO_ROOM:
        program.ask(line, right)
    program.quiet("the talk")
    program.end()


def in_pieces(program):
    program.write(b"01010005000000")
    program.quiet("half a line")
    program.write(b"0000001000")
    program.quiet("a line without its end")
    program.write(b"\n0A0100")
    program.expect(b"a line in pieces", b"00")
    program.quiet("half a line")
    program.write(b"05\n\n0")
    program.expect(b"0A010005", b"000000000000001000")
    program.expect(b"", b"FF50")
    program.quiet("one digit")
    program.write(b"\n")
    program.expect(b"0", b"FF50")
    line = b"0a010005"
    for byte in line:
        program.write(bytes([byte]))
    program.quiet("a line without its end")
    program.ask(b"", b"000000000000001000")
    program.end()


def long_line(program):
    program.ask(b"010100050000000000001000", b"00")
    piece = b"0A010005" * (1 << 17)
    for _ in range(LONG):
        program.write(piece)
    program.quiet("a line without its end")
    program.ask(b"0A010005", b"FF50")
    program.ask(b"0A010005", b"000000000000001000")
    memory = program.memory()
    if memory is None:
        print("interactive: the memory could not be read, and is not checked")
    elif memory > MEMORY:
        raise Wrong(f"it holds {memory} KiB after a line of {LONG} MiB")
    program.end()


def nothing(program):
    program.end()


def no_last_line_end(program):
    program.write(b"010100050000000000001000\n0A010005")
    program.expect(b"010100050000000000001000", b"00")
    program.quiet("a line without its end")
    program.end([b"000000000000001000"])


def bad_last_line(program):
    program.write(b"0A01000")
    program.end([b"FF50"])


def long_last_line(program):
    program.write(b"0A" * 100_000)
    program.end([b"FF50"])


def last_line_end(program):
    program.write(b"0A010005\n\n")
    program.end([b"000000000000000000", b"FF50"])


CHECKS = [
    one_at_a_time,
    many_at_once,
    trades,
    full_book,
    in_pieces,
    long_line,
    nothing,
    no_last_line_end,
    bad_last_line,
    long_last_line,
    last_line_end,
]


def main():
    if len(sys.argv) != 2:
        print("usage: interactive.py PROGRAM", file=sys.stderr)
        return 2
    path = os.path.abspath(sys.argv[1])
    wrong = 0
    for check in CHECKS:
        try:
            with Program(path) as program:
                check(program)
        except Wrong as what:
            wrong += 1
            print(f"interactive: {check.__name__}: {what}")
        except OSError as error:
            print(f"interactive: {sys.argv[1]}: {error.strerror}")
            return 1
    if not wrong:
        print(f"interactive: {len(CHECKS)} talks, every answer right and in time")
    return 1 if wrong else 0


if __name__ == "__main__":
    sys.exit(main())
