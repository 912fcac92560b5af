"""Smaller old trees for a case: a piece put in the place of a larger one of the same nonterminal, lower numbers, records left out."""


def nodes_of(sheet, row):
    """For each record of a tree by its kinds, whatever its sizes: its terminal or left side, and its first record; None for other rows."""
    if sheet is None or len(row) < 2 or len(row) < 2 + 3 * row[0] or not row[0]:
        return None
    prods, roots, found = sheet[4], [], []
    for at in range(row[0]):
        kind = row[2 + 3 * at]
        if kind < 256:
            symbol, first = kind, at
        else:
            if kind - 256 >= len(prods):
                return None
            left, symbols = prods[kind - 256]
            below = len(roots) - len(symbols)
            if below < 0 or [found[root][0] for root in roots[below:]] != symbols:
                return None
            symbol, first = 128 + left, found[roots[below]][1] if symbols else at
            del roots[below:]
        roots.append(at)
        found.append((symbol, first))
    return found if len(roots) == 1 else None


def smaller(fields, sheet):
    """Cases with a smaller old tree."""
    row = fields["row"]
    if len(row) >= 2 and len(row) > 2 + 3 * row[0]:
        yield {**fields, "row": row[: 2 + 3 * row[0]]}
    nodes = nodes_of(sheet, row)
    if nodes is None:
        yield from loose(fields)
        return
    yield from lower_numbers(fields)
    tokens = [0]
    for at in range(row[0]):
        tokens.append(tokens[-1] + (row[2 + 3 * at] < 256))
    least = {}
    for at, (symbol, first) in enumerate(nodes):
        if symbol >= 128 and (symbol not in least or at - first < least[symbol] - nodes[least[symbol]][1]):
            least[symbol] = at
    by_size = sorted((at for at in range(row[0]) if nodes[at][0] >= 128), key=lambda at: nodes[at][1] - at)
    for at in by_size:
        symbol, first = nodes[at]
        inner = [other for other in range(first, at) if nodes[other][0] == symbol]
        for other in {least[symbol], *inner[:1], *inner[-1:], *inner[len(inner) // 2 : len(inner) // 2 + 1]}:
            if other - nodes[other][1] < at - first:
                yield replaced(fields, nodes, tokens, at, other)


def replaced(fields, nodes, tokens, at, other):
    """The case with the piece of one node put in the place of another's; it has that one's numbers unless it was part of it."""
    row = fields["row"]
    first, begin = nodes[at][1], nodes[other][1]
    inside = first <= begin and other <= at
    size, was = other + 1 - begin, at + 1 - first
    piece = []
    for i in range(size):
        kind, number, part = row[2 + 3 * (begin + i) : 5 + 3 * (begin + i)]
        piece += [kind, number if inside else row[2 + 3 * (first + i) + 1], part]
    behind = row[2 + 3 * (at + 1) : 2 + 3 * row[0]]
    for i in range(at + 1, row[0]):
        if nodes[i][1] <= first:
            behind[3 * (i - at - 1) + 2] -= was - size
    new = [row[0] - was + size, row[1]] + row[2 : 2 + 3 * first] + piece + behind + row[2 + 3 * row[0] :]
    left, right = tokens[first], tokens[at + 1]
    kept, skipped = tokens[other + 1] - tokens[begin], tokens[begin] - left if inside else 0

    def moved(place):
        if place >= right:
            return place - (right - left) + kept
        return place if place <= left else left + max(0, min(place - left - skipped, kept))

    edits = list(fields["edits"])
    for i in range(0, len(edits) // 3 * 3, 3):
        place, removed = edits[i], edits[i + 1]
        if place + removed <= tokens[-1]:
            edits[i], edits[i + 1] = moved(place), moved(place + removed) - moved(place)
    return {**fields, "row": new, "edits": edits}


def lower_numbers(fields):
    """Numbers 1 upward in the order of the old ones, or in written order, and the next number just above."""
    row = fields["row"]
    numbers = row[3 : 2 + 3 * row[0] : 3]
    rank = {number: at + 1 for at, number in enumerate(sorted(set(numbers)))}
    for lower in ([rank[number] for number in numbers], list(range(1, len(numbers) + 1))):
        new = list(row)
        new[3 : 2 + 3 * row[0] : 3] = lower
        yield {**fields, "row": [row[0], len(numbers) + 1] + new[2:]}
        yield {**fields, "row": new}
    yield {**fields, "row": [row[0], max(numbers) + 1] + row[2:]}


def loose(fields):
    """A row that is no tree: records left out, the count lowered with them or not; words left out at the end; smaller words."""
    row = fields["row"]
    count = (len(row) - 2) // 3
    size = count
    while size > 0:
        for at in range(0, count, size):
            left = row[2 : 2 + 3 * at] + row[2 + 3 * (at + size) :]
            yield {**fields, "row": [max(row[0] - size, 0), row[1]] + left}
            yield {**fields, "row": row[:2] + left}
        size //= 2
    for less in (1, 2, 3, len(row)):
        yield {**fields, "row": row[: max(len(row) - less, 0)]}
    for at in range(min(len(row), 300)):
        for word in {0, 1, row[at] // 2}:
            if word < row[at]:
                yield {**fields, "row": row[:at] + [word] + row[at + 1 :]}
