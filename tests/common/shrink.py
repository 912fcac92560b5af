"""Makes a case on which two programs differ smaller, as long as they differ: fewer edits, tokens, codes and nodes, a smaller table."""
import struct
import time

import shrink_tables
import shrink_trees
from cases import FIELDS, ROOM, TREE, number, words
from sheets import whole_parts

NAMES = {
    "T": ["table"],
    "R": ["table", "codes", "first", "tree", "room"],
    "U": ["table", "row", "edits", "put", "tree", "room"],
    "L": ["table", "row", "edits", "put"],
}
NAMES["N"], NAMES["V"] = ["times"] + NAMES["R"], ["times"] + NAMES["U"]
PLAIN = {"first": 1, "tree": TREE, "room": ROOM, "times": 1}


def decoded(case):
    """The fields of a case, by name."""
    kind, at = chr(case[0]), 1
    fields = {"kind": kind}
    for name, form in zip(NAMES[kind], FIELDS[case[:1]]):
        count = struct.unpack_from(">I", case, at)[0]
        at += 4
        if form == "n":
            fields[name] = count
            continue
        size = count if form == "b" else 4 * count
        part = case[at : at + size]
        fields[name] = part if form == "b" else list(struct.unpack(f">{count}I", part))
        at += size
    return fields


def encoded(fields):
    out = fields["kind"].encode()
    for name, form in zip(NAMES[fields["kind"]], FIELDS[out]):
        value = fields[name]
        out += number(value) if form == "n" else words(value) if form == "w" else number(len(value)) + value
    return out


def cost(fields):
    """What a smaller case has less of: bytes first, then fields that are not the plain ones, then parts of the table, then worth."""
    rows = [fields[name] for name in ("codes", "row", "edits", "put") if name in fields]
    unlike = sum(fields.get(name, plain) != plain for name, plain in PLAIN.items()) + (fields["kind"] in "NV")
    return len(encoded(fields)), unlike, shrink_tables.weight(fields["table"]), sum(map(sum, rows)) + fields.get("first", 0), sum(fields["table"])


def parted(row, step=1):
    """The row without a part of it: halves first, then smaller parts, whole steps each."""
    count = len(row) // step
    size = count
    while size:
        for at in range(0, count, size):
            yield row[: at * step] + row[(at + size) * step :]
        size //= 2


def plainer(fields):
    """One field made plain."""
    if fields["kind"] in "NV":
        yield {**{name: value for name, value in fields.items() if name != "times"}, "kind": "R" if fields["kind"] == "N" else "U"}
    for name, plain in PLAIN.items():
        if name in fields and name != "times" and fields[name] != plain:
            yield {**fields, name: plain}


def fewer_codes(fields):
    for codes in parted(fields.get("codes", [])):
        yield {**fields, "codes": codes}
    for at, code in enumerate(fields.get("codes", [])[:200]):
        if code > 1:
            yield {**fields, "codes": fields["codes"][:at] + [1] + fields["codes"][at + 1 :]}


def fewer_edits(fields):
    """Edits left out with their codes; fewer removals, fewer codes put in."""
    if "edits" not in fields:
        return
    edits, put = fields["edits"], fields["put"]
    whole, odd = edits[: len(edits) // 3 * 3], edits[len(edits) // 3 * 3 :]
    records, at = [], 0
    for place, removed, count in zip(*[iter(whole)] * 3):
        records.append((place, removed, put[at : at + count], count))
        at += count
    rest = put[at:]

    def back(records, rest=rest, odd=odd):
        return {
            **fields,
            "edits": [w for place, removed, codes, count in records for w in (place, removed, count)] + odd,
            "put": [code for record in records for code in record[2]] + rest,
        }

    for fewer in parted(records):
        yield back(fewer)
    if odd:
        yield back(records, odd=[])
    for fewer in parted(rest):
        yield back(records, rest=fewer)
    for i, (place, removed, codes, count) in enumerate(records):
        for fewer in parted(codes):
            yield back(records[:i] + [(place, removed, fewer, count - len(codes) + len(fewer))] + records[i + 1 :])
        for less in {0, removed // 2, removed - 1} if removed else ():
            yield back(records[:i] + [(place, less, codes, count)] + records[i + 1 :])
        for code in [c for c in range(len(codes)) if codes[c] > 1][:50]:
            yield back(records[:i] + [(place, removed, codes[:code] + [1] + codes[code + 1 :], count)] + records[i + 1 :])


def candidates(fields):
    """Cases that may be smaller, the bolder ones first."""
    sheet = whole_parts(fields["table"])
    yield from plainer(fields)
    yield from fewer_edits(fields)
    yield from fewer_codes(fields)
    if "row" in fields:
        yield from shrink_trees.smaller(fields, sheet)
    yield from shrink_tables.smaller(fields, sheet)


def smallest(case, differ, seconds=30):
    """The smallest case found on which the programs differ; `differ` says of each of some cases whether they do."""
    until = time.monotonic() + seconds
    best, tried = decoded(case), set()
    while time.monotonic() < until:
        better = next_smaller(best, differ, tried, until)
        if better is None:
            break
        best = better
    return encoded(best)


def next_smaller(best, differ, tried, until):
    """A smaller case on which they differ: the smallest of the first lot of candidates that has one."""
    limit, lot, size = cost(best), [], 16

    def found():
        hits = [fields for (fields, _), differs in zip(lot, differ([case for _, case in lot])) if differs]
        return min(hits, key=cost, default=None)

    for fields in candidates(best):
        try:
            case = encoded(fields) if fields else b""
        except struct.error:
            continue
        if not case or case in tried or cost(fields) >= limit:
            continue
        tried.add(case)
        lot.append((fields, case))
        if len(lot) == size:
            better = found()
            if better or time.monotonic() > until:
                return better
            lot, size = [], min(2 * size, 256)
    return found() if lot else None
