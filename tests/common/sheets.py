"""Table sheets taken apart and put together."""
import struct


def sheet(t, n, p, s, prods, actions, gotos, states):
    """A sheet from its parts; a state is a list of (production, dot, set)."""
    out = b"LRT\0\1" + bytes([t, n, p, s])
    for left, symbols in prods:
        out += bytes([left, len(symbols)] + symbols + [0] * (8 - len(symbols)))
    for row in actions:
        out += b"".join(struct.pack(">H", w) for w in row)
    for row in gotos:
        out += bytes(row)
    for items in states:
        out += struct.pack(">H", len(items)) + b"".join(bytes([q, d]) + struct.pack(">Q", x) for q, d, x in items)
    return out


def parts(data):
    """The parts of a sheet, as `sheet` takes them."""
    t, n, p, s = data[5:9]
    at = 9
    prods, actions, gotos, states = [], [], [], []
    for _ in range(p):
        prods.append((data[at], list(data[at + 2 : at + 2 + data[at + 1]])))
        at += 10
    for _ in range(s):
        actions.append(list(struct.unpack(f">{t}H", data[at : at + 2 * t])))
        at += 2 * t
    for _ in range(s):
        gotos.append(list(data[at : at + n]))
        at += n
    for _ in range(s):
        count = struct.unpack(">H", data[at : at + 2])[0]
        at += 2
        states.append([struct.unpack(">BBQ", data[at + 10 * i : at + 10 * i + 10]) for i in range(count)])
        at += 10 * count
    return [t, n, p, s, prods, actions, gotos, states]


def whole_parts(data):
    """The parts of a sheet whose bytes are exactly those that they make; None for any other row of bytes."""
    try:
        found = parts(data)
        return found if sheet(*found) == data else None
    except (ValueError, IndexError, struct.error):
        return None
