#!/usr/bin/env python3
"""tools/pages.py NAME > FILE: writes the standard input of a run of the listing program, from document 01's page layout.

NAME is listing, refused, byte, empty, too_long, correction or closed. The expected listings stand in crates/listing/stdout and tests/listing/NAME/stdout.
"""
import sys

ABSENT = (0, 65535)


def sealed(front):
    """A page of which the front is given: zeros up to byte 507, then the check."""
    front = front[:508].ljust(508, b"\0")
    return front + sum((i + 1) * x for i, x in enumerate(front)).to_bytes(4, "little")


def page(ticket, reads=(), puts=(), deletes=()):
    """A page: reads are (key, (block, place)), puts are (key, kilograms), deletes are keys; the writes stand by their keys."""
    writes = sorted([(k, 0, v) for k, v in puts] + [(k, 1, 0) for k in deletes])
    head = bytes([0x54, len(reads), len(writes), 0]) + ticket.to_bytes(4, "little")
    body = b"".join(k.to_bytes(2, "little") + p.to_bytes(2, "little") + b.to_bytes(4, "little") for k, (b, p) in reads)
    body += b"".join(k.to_bytes(2, "little") + kind.to_bytes(2, "little") + v.to_bytes(8, "little", signed=True) for k, kind, v in writes)
    return sealed(head + body)


def listing():
    """The five pages of document 01's example."""
    return [
        page(10, puts=[(5, 68400)]),
        page(20, reads=[(5, ABSENT)], puts=[(6, 100)]),
        page(30, reads=[(6, ABSENT)], puts=[(7, -50)]),
        page(40, reads=[(7, ABSENT)], puts=[(5, 1)]),
        page(50, reads=[(8, (0, 0))]),
    ]


def refused():
    """The same five pages with one bit of page 3 changed: its check differs, so 2 at 3 * 512 + 508 = 2044."""
    pages = listing()
    third = bytearray(pages[3])
    third[20] ^= 1
    pages[3] = bytes(third)
    return pages


def byte():
    """The same five pages, but page 3 puts on key 5 twice: 8 at its second write, 3 * 512 + 8 + 8 + 12 = 1564.

    By E1 it is the first byte of the lowest bad entry, of two keys that do not rise the later. One read stands before.
    """
    pages = listing()
    pages[3] = page(40, reads=[(7, ABSENT)], puts=[(5, 1), (5, 2)])
    return pages


def too_long():
    """64 pages and one byte more: 11 at place 0, whatever the pages are."""
    return [bytes(32768), bytes(1)]


def correction():
    """The customer's case: a correction shares its batch with settlements that had read the old weight.

    Key 4 is the weight of the lot, key 9 the furnace charge, key 3 the lot's settlement. Every key is absent at the
    start, so the old weight is the absent version of key 4.

    Page 0, ticket 70, corrects: it puts 68,400 t on key 4 and reads nothing.
    Page 1, ticket 60, settles: it reads key 4 as absent and puts 684,000 t on key 3.
    Page 2, ticket 80, blends: it reads keys 3 and 4 as absent and puts 5,000 t on key 9 and 1,000 t on key 4.
    Page 3, ticket 90, settles late: it reads key 4 at block 0 place 7, which was never its version.

    By document 01's rules, by hand:
    Rule 1: every read of pages 0, 1 and 2 names the absent version, so they are current; page 3 is stale.
    Rule 2: page 1 reads 4, which pages 0 and 2 write: 1 before 0, 1 before 2. Page 2 reads 3, which page 1 writes:
            2 before 1. Page 2 reads 4, which page 0 writes: 2 before 0. Its own write of 4 makes no demand on itself.
    Rule 3: rising tickets are 60 (page 1), 70 (page 0), 80 (page 2). 60 is kept. 70: the demand 1 before 0 alone makes
            no cycle, kept: the correction is not thrown out. 80: 1 before 2 and 2 before 1 are a cycle, verdict 2.
    Rule 4: of pages 0 and 1, page 0 has to wait for page 1, so page 1 has place 0 and page 0 has place 1.
    Commit under n 1: page 1 puts 684000 kg at (1, 0) on key 3, page 0 puts 68400 kg at (1, 1) on key 4.
    """
    return [
        page(70, puts=[(4, 68400)]),
        page(60, reads=[(4, ABSENT)], puts=[(3, 684000)]),
        page(80, reads=[(3, ABSENT), (4, ABSENT)], puts=[(4, 1000), (9, 5000)]),
        page(90, reads=[(4, (0, 7))]),
    ]


def closed():
    """Lots that are closed: by E3 a delete leaves a version, and the listing shows present keys only.

    Keys 3 to 8 are lots. Every key is absent at the start.

    Page 0, ticket 50, closes the lot of key 5 and puts 0,100 t on key 6.
    Page 1, ticket 40, puts 1,000 t on key 5 and closes the lot of key 6.
    Page 2, ticket 10, puts 68,400 t on key 3.
    Page 3, ticket 20, closes the lot of key 4, which was never opened.
    Page 4, ticket 30, reads key 4 as absent and puts -0,050 t on key 7.
    Page 5, ticket 60, reads key 4 as the deleted version of block 1, place 2, and puts 0,001 t on key 8.

    By the rules, by hand:
    Rule 1: key 4 is absent at the start, so page 4 is current. Page 5 names what this batch will leave on key 4, not what it
            has at the start: stale. The others read nothing.
    Rule 2: page 4 reads 4, which page 3 deletes: 4 before 3. Pages 0 and 1 write the same two keys, which makes no demand.
    Rule 3: one demand alone makes no cycle, so pages 0 to 4 are kept.
    Rule 4: ticket 10 (page 2) has place 0. Ticket 20 (page 3) has to wait for page 4, so ticket 30 (page 4) has place 1, and
            then ticket 20 has place 2. Ticket 40 (page 1) has place 3, ticket 50 (page 0) has place 4.
    Commit under n 1: page 2 puts 68400 kg at (1, 0) on key 3. Page 4 still finds key 4 absent, and puts -50 kg at (1, 1) on
            key 7. Page 3 leaves (1, 32770) on key 4. Page 1 puts 1000 kg at (1, 3) on key 5 and leaves (1, 32771) on key 6.
            Page 0 leaves (1, 32772) on key 5 and puts 100 kg at (1, 4) on key 6.
    Keys 4 and 5 are deleted and not shown; key 6 was deleted and is present again; key 8 stays absent.
    """
    return [
        page(50, puts=[(6, 100)], deletes=[5]),
        page(40, puts=[(5, 1000)], deletes=[6]),
        page(10, puts=[(3, 68400)]),
        page(20, deletes=[4]),
        page(30, reads=[(4, ABSENT)], puts=[(7, -50)]),
        page(60, reads=[(4, (1, 32770))], puts=[(8, 1)]),
    ]


RUNS = {
    "listing": listing,
    "refused": refused,
    "byte": byte,
    "empty": list,
    "too_long": too_long,
    "correction": correction,
    "closed": closed,
}

if __name__ == "__main__":
    if len(sys.argv) != 2 or sys.argv[1] not in RUNS:
        sys.exit(__doc__)
    sys.stdout.buffer.write(b"".join(RUNS[sys.argv[1]]()))
