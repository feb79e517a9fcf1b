#!/usr/bin/env python3
"""Scripts for the console at the edges of books, rosters and fleet lists, with the answers that the rules give.

Usage: tools/console_edges.py DIR    writes DIR/edges.in and DIR/edges.out
The answers come from this file's own reading of docs/RULES.md, not from the proved code.
"""
import os
import sys

SCRIPT, ANSWERS = [], []


def say(command, answer):
    SCRIPT.append(command)
    ANSWERS.append(answer)


def hexed(data):
    return data.hex() or "-"


def ident(n):
    return n.to_bytes(16, "big")


def padded(name):
    return name.ljust(16, b"\0")


def is_name(b):
    text = b.rstrip(b"\0")
    return len(b) == 16 and 1 <= len(text) <= 15 and all(32 <= c <= 126 for c in text)


def book(fleet, total=None):
    vehicles = [v for _, _, vs in fleet for v in vs]
    out = bytes([1, 0]) + len(fleet).to_bytes(2, "big")
    for i, counter, vs in fleet:
        out += i + counter.to_bytes(4, "big") + bytes([len(vs)])
    out += (len(vehicles) if total is None else total).to_bytes(2, "big")
    return out + b"".join(padded(n) + bytes([f]) for n, f in vehicles)


def open_book(b):
    """None, or the refusal's number and place."""
    if len(b) < 4 or b[0] != 1 or b[1] != 0:
        return 2, 0
    count = b[2] * 256 + b[3]
    if count > 200 or len(b) < 6 + 21 * count:
        return 3, 0
    total = int.from_bytes(b[4 + 21 * count:6 + 21 * count], "big")
    if total > 2000 or len(b) != 6 + 21 * count + 17 * total:
        return 4, 0
    entries = [b[4 + 21 * i:25 + 21 * i] for i in range(count)]
    base = 6 + 21 * count
    rows = [b[base + 17 * i:base + 17 * i + 17] for i in range(total)]
    prior = b""
    for i, e in enumerate(entries, 1):
        if e[:16] == bytes(16) or e[:16] <= prior:
            return 5, i
        prior = e[:16]
    for i, e in enumerate(entries, 1):
        if e[16:20] == bytes(4):
            return 6, i
    for i, e in enumerate(entries, 1):
        if not 1 <= e[20] <= 32:
            return 7, i
    if sum(e[20] for e in entries) != total:
        return 8, 0
    for i, r in enumerate(rows, 1):
        if not is_name(r[:16]):
            return 9, i
    for i, r in enumerate(rows, 1):
        if r[16] not in (1, 2):
            return 10, i
    at = 0
    for e in entries:
        seen = set()
        for k in range(at, at + e[20]):
            if rows[k][:16] in seen:
                return 11, k + 1
            seen.add(rows[k][:16])
        at += e[20]
    return None


def opened(b):
    bad = open_book(b)
    say("open " + hexed(b), "opened" if bad is None else "refused book %d place %d" % bad)


def line_end(t):
    """Reads one line of a list: its fleet entry and its length, or the count of bytes before the fault."""
    at = 0
    for _ in range(32):
        if at >= len(t) or t[at] not in b"0123456789abcdef":
            return None, at
        at += 1
    if at >= len(t) or t[at] != 32:
        return None, at
    at += 1
    value = 0
    first = at
    while True:
        if at < len(t) and 48 <= t[at] <= 57 and not (at == first and t[at] == 48) and value * 10 + t[at] - 48 < 2 ** 32:
            value = value * 10 + t[at] - 48
            at += 1
        elif at < len(t) and t[at] == 32 and at > first:
            break
        else:
            return None, at
    vehicles = []
    while at < len(t) and t[at] == 32 and len(vehicles) < 32:
        at += 1
        if at >= len(t) or t[at] != 34:
            return None, at
        at += 1
        name = b""
        while True:
            if at >= len(t):
                return None, at
            c = t[at]
            if c == 34 and name:
                at += 1
                break
            if c == 92 and len(name) < 15:
                at += 1
                if at >= len(t) or t[at] not in b'"\\':
                    return None, at
                c = t[at]
            elif c == 34 or c == 92 or not 32 <= c <= 126 or len(name) >= 15:
                return None, at
            name += bytes([c])
            at += 1
        if at >= len(t) or t[at] not in b"+-":
            return None, at
        vehicles.append((name, 1 if t[at] == 43 else 2))
        at += 1
    if not vehicles or at >= len(t) or t[at] != 10:
        return None, at
    return (bytes.fromhex(t[:32].decode()), value, vehicles), at + 1


def imported(text, room):
    fleet, at, number = [], 0, 0
    answer = None
    while at < len(text):
        number += 1
        entry, end = line_end(text[at:])
        if entry is None:
            answer = "refused text 1 line %d byte %d" % (number, end + 1)
            break
        fleet.append(entry)
        at += end
    out = bytearray(b"\xa5" * room)
    if answer is None:
        answer = list_answer(fleet, out)
    say("import %d %s" % (room, hexed(text)), answer + "\nbytes " + hexed(bytes(out)))


def list_answer(fleet, out):
    if len(fleet) > 200:
        return "refused text 3 place 0"
    if sum(len(e[2]) for e in fleet) > 2000:
        return "refused text 4 place 0"
    prior = b""
    for i, e in enumerate(fleet, 1):
        if e[0] == bytes(16) or e[0] <= prior:
            return "refused text 5 place %d" % i
        prior = e[0]
    for i, e in enumerate(fleet, 1):
        if len(set(n for n, _ in e[2])) < len(e[2]):
            return "refused text 11 place %d" % i
    b = book(fleet)
    if len(b) > len(out):
        return "refused text 24 place %d" % len(b)
    out[:len(b)] = b
    return "imported %d" % len(b)


def listed(fleet):
    text = b""
    for i, counter, vs in fleet:
        text += i.hex().encode() + b" %d" % counter
        for n, f in vs:
            text += b' "' + n.replace(b"\\", b"\\\\").replace(b'"', b'\\"') + b'"' + (b"+" if f == 1 else b"-")
        text += b"\n"
    return text


def exported(b, fleet, room):
    out = bytearray(b"\xa5" * room)
    bad = open_book(b)
    if bad:
        answer = "refused book %d place %d" % bad
    else:
        text = listed(fleet)
        if len(text) > room:
            answer = "refused book 24 place %d" % len(text)
        else:
            out[:len(text)] = text
            answer = "exported %d %d" % (len(text), len(fleet))
    say("export %d %s" % (room, hexed(b)), answer + "\nbytes " + hexed(bytes(out)))


def train(n, size, first=0):
    return [(b"%d-%d" % (first, k), 1 + k % 2) for k in range(size)]


def books():
    small = [(ident(5), 7, [(b"A", 1), (b'B"2', 2)]), (ident(9), 4294967295, [(b"C", 2)])]
    whole = book(small)
    for cut in range(len(whole) + 1):
        opened(whole[:cut])
    opened(whole + b"\0")
    for at in range(6):
        opened(whole[:at] + bytes([whole[at] ^ 1]) + whole[at + 1:])
    for at, value in ((20, 0), (23, 0), (24, 0), (24, 33), (24, 3), (48, 0), (64, 0), (64, 3), (65, 65)):
        opened(whole[:at] + bytes([value]) + whole[at + 1:])
    opened(book([(ident(k), k, [(b"V", 1)]) for k in range(1, 201)]))
    opened(book([(ident(k), k, [(b"V", 1)]) for k in range(1, 202)]))
    opened(book([(ident(k), k, train(k, 32 if k < 63 else 16)) for k in range(1, 64)]))
    opened(book([(ident(k), k, train(k, 32 if k < 63 else 17)) for k in range(1, 64)]))
    opened(book([(ident(k), k, train(k, 33)) for k in (1, 2)]))
    opened(book([(ident(1), 1, [(b"123456789012345", 1)])]))
    opened(book([(ident(1), 1, [(b"1234567890123456", 1)])]))
    opened(book([(ident(2), 1, [(b"A", 1)]), (ident(2), 1, [(b"A", 1)])]))
    opened(book([(ident(2), 1, [(b"A", 1)]), (ident(1), 1, [(b"A", 1)])]))
    opened(book([(ident(1), 1, [(b"A", 1)]), (ident(2), 1, [(b"A", 1), (b"B", 2), (b"A", 2)])]))
    opened(whole)
    say("name 0", "absent")
    say("name 1", "name 48 x" + padded(b"A").hex())
    say("name 3", "name 82 x" + padded(b"C").hex())
    say("name 4", "absent")
    say("look book " + ident(9).hex(), "consist 4294967295 1")
    say("look book " + ident(0).hex(), "absent")
    say("vehicle book %s 2" % ident(5).hex(), "vehicle x%s-" % padded(b'B"2').hex())
    say("vehicle book %s 0" % ident(5).hex(), "absent")
    say("vehicle book %s 3" % ident(5).hex(), "absent")
    opened(whole[:-1])
    say("vehicle book %s 1" % ident(9).hex(), "vehicle x%s-" % padded(b"C").hex())


def rosters():
    for k in range(101, 164):
        say('announce %s %d "V%d"+ "W%d"-' % (ident(k).hex(), k, k, k), "announced")
    say('announce %s 1 "V"+' % ident(164).hex(), "refused roster 16 place 0")
    say('announce %s 9 "NEW"-' % ident(120).hex(), "announced")
    say("look roster " + ident(120).hex(), "consist 9 1")
    say("vehicle roster %s 1" % ident(120).hex(), "vehicle x%s-" % padded(b"NEW").hex())
    say("vehicle roster %s 2" % ident(120).hex(), "absent")
    say("vehicle roster %s 2" % ident(121).hex(), "vehicle x%s-" % padded(b"W121").hex())
    say("forget " + ident(164).hex(), "refused roster 13 place 0")
    say("forget " + ident(0).hex(), "refused roster 5 place 0")
    say("forget " + ident(130).hex(), "forgotten")
    say("look roster " + ident(130).hex(), "absent")
    say('announce %s 1 "V"+' % ident(164).hex(), "announced")
    say('announce %s 1 "V"+' % ident(165).hex(), "refused roster 16 place 0")
    many = " ".join('"N%d"+' % k for k in range(32))
    say("announce %s 1 %s" % (ident(164).hex(), many), "announced")
    say('announce %s 1 %s "X"+' % (ident(164).hex(), many), "refused roster 7 place 0")
    say("announce %s 1" % ident(164).hex(), "refused roster 7 place 0")
    say('announce %s 0 "A"+' % ident(164).hex(), "refused roster 6 place 0")
    say('announce %s 1 "A"+ "B"? "A"-' % ident(164).hex(), "refused roster 10 place 2")
    say('announce %s 1 "A"+ "B"+ "A"-' % ident(164).hex(), "refused roster 11 place 3")
    say('announce %s 1 "A"+ "1234567890123456"+' % ident(164).hex(), "refused roster 9 place 2")
    say("look roster " + ident(164).hex(), "consist 1 32")


def lists():
    line = ident(1).hex().encode() + b' 7 "A"+ "B\\"2"- "\\\\"+\n'
    for cut in range(len(line) + 1):
        imported(line[:cut], 80)
    imported(b"", 6)
    imported(b"", 5)
    imported(line.replace(b"\n", b"\r\n"), 80)
    imported(line.replace(b"01 ", b"0A "), 80)
    for counter in (b"0", b"4294967295", b"4294967296", b"42949672950", b"07"):
        imported(ident(1).hex().encode() + b" " + counter + b' "A"+\n', 60)
    for name in (b"", b"123456789012345", b"1234567890123456", b"12345678901234\\\"", b"123456789012345\\\"", b"B\\n", b"\x7f", b"~ "):
        imported(ident(1).hex().encode() + b' 1 "' + name + b'"+\n', 60)
    full = b"".join(b' "N%d"+' % k for k in range(32))
    imported(ident(1).hex().encode() + b" 1" + full + b"\n", 600)
    imported(ident(1).hex().encode() + b" 1" + full + b' "X"+\n', 600)
    imported(line + line, 200)
    imported(line + line.replace(b"01 ", b"02 "), 200)
    imported(line.replace(b"01 ", b"00 "), 200)
    imported(line + ident(2).hex().encode() + b' 1 "A"+ "B"+ "A"-\n', 200)
    imported(line + b"x", 200)
    imported(b"".join(ident(k).hex().encode() + b' 1 "A"-\n' for k in range(1, 201)), 7606)
    imported(b"".join(ident(k).hex().encode() + b' 1 "A"-\n' for k in range(1, 202)), 10)
    many = [(ident(k), k, train(k, 32 if k < 63 else 17)) for k in range(1, 64)]
    imported(listed(many), 10)
    fleet = [(ident(1), 7, [(b"A", 1), (b'B"2', 2), (b"\\", 1)]), (ident(3), 4294967295, [(b" ~", 2)])]
    b = book(fleet)
    for room in (0, 10, len(listed(fleet)) - 1, len(listed(fleet)), len(listed(fleet)) + 3):
        exported(b, fleet, room)
    exported(b[:-1], fleet, 200)
    exported(book([]), [], 0)
    imported(listed(fleet), len(b))
    imported(listed(fleet), len(b) - 1)


def main():
    books()
    rosters()
    lists()
    where = sys.argv[1]
    with open(os.path.join(where, "edges.in"), "w") as f:
        f.write("\n".join(SCRIPT) + "\n")
    with open(os.path.join(where, "edges.out"), "w") as f:
        f.write("\n".join(ANSWERS) + "\n")


if __name__ == "__main__":
    main()
