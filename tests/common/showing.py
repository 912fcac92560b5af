"""A case in words, for people."""
from sheets import whole_parts
from shrink import decoded


def symbol(x):
    """A terminal as its number, a nonterminal as N and its number."""
    return f"N{x - 128}" if x >= 128 else str(x)


def table_lines(table):
    found = whole_parts(table)
    if found is None:
        return [f"table: {len(table)} bytes, not a sheet whose parts fit"]
    t, n, p, s, prods, actions, gotos, states = found
    lines = [f"table: {len(table)} bytes, T {t}, N {n}, P {p}, S {s}, {sum(map(len, states))} items"]
    if p <= 12:
        lines += [f"  production {i}: N{left}: {' '.join(map(symbol, symbols)) or 'nothing'}" for i, (left, symbols) in enumerate(prods)]
    if s <= 12 and t <= 12 and n <= 12:
        for i in range(s):
            items = "; ".join(f"({q},{d}) {{{' '.join(str(a) for a in range(64) if set_ >> a & 1)}}}" for q, d, set_ in states[i])
            words = [f"{a}: {action(w)}" for a, w in enumerate(actions[i]) if w] + [f"N{b}: to {g}" for b, g in enumerate(gotos[i]) if g != 255]
            lines.append(f"  state {i}: {items} | {', '.join(words) or 'no moves'}")
    return lines


def action(word):
    if word == 1:
        return "accept"
    return f"shift to {word - 256}" if 256 <= word < 512 else f"reduce {word - 512}" if 512 <= word < 768 else f"word {word}"


def tree_text(row):
    """A tree as bracketed text, a node as kind#number; other rows as their words."""
    parts, count = [], row[0] if row else 0
    if len(row) < 2 + 3 * count or not 0 < count <= 40:
        return " ".join(map(str, row[:140])) + (f" .. {len(row)} words" if len(row) > 140 else "")
    for i in range(count):
        kind, number, size = row[2 + 3 * i : 5 + 3 * i]
        inner, left = [], size - 1
        while left > 0 and parts:
            text, part = parts.pop()
            inner.insert(0, text)
            left -= part
        if left or size < 1:
            return " ".join(map(str, row))
        parts.append((f"{kind}#{number}" + (f"({' '.join(inner)})" if inner else ""), size))
    more = f", and {len(row) - 2 - 3 * count} words behind" if len(row) > 2 + 3 * count else ""
    return f"{count} nodes, next number {row[1]}: " + " ".join(text for text, _ in parts) + more


def few(row):
    return " ".join(map(str, row[:60])) + (f" .. {len(row)} in all" if len(row) > 60 else "") or "none"


def case_lines(case):
    """The case, a field a line."""
    fields = decoded(case)
    names = {"T": "the table check", "R": "a reading", "U": "an update", "N": "a reading", "V": "an update", "L": "the reading list of an update"}
    lines = [names[fields["kind"]] + (f", made {fields['times']} times" if "times" in fields else "")] + table_lines(fields["table"])
    if "codes" in fields:
        lines += [f"codes: {few(fields['codes'])}", f"first number: {fields['first']}"]
    if "row" in fields:
        edits = fields["edits"]
        records = [f"({a} {b} {c})" for a, b, c in zip(*[iter(edits)] * 3)] + [str(word) for word in edits[len(edits) // 3 * 3 :]]
        lines += [f"old tree: {tree_text(fields['row'])}", f"edits (place, removed, put in): {few(records)}", f"codes put in: {few(fields['put'])}"]
    if "tree" in fields:
        lines.append(f"lent: {fields['tree']} words of tree, {fields['room']} of room")
    return lines


def short(case):
    """The case in a few words."""
    fields = decoded(case)
    said = [f"table of {len(fields['table'])} bytes"]
    if "codes" in fields:
        said += [f"{len(fields['codes'])} codes", f"first {fields['first']}"]
    if "row" in fields:
        said += [f"tree of {fields['row'][0] if fields['row'] else 0} nodes", f"edits {few(fields['edits'])}"]
    return f"{fields['kind']}: " + ", ".join(said)


def first_line(answer):
    """An answer in one line: its first line, and how the others begin."""
    lines = answer.splitlines()
    return " / ".join(line[:60] for line in lines)


def shown(case, one, two, names=("library", "second")):
    """A difference: the case in words, both answers, and the bytes of the case."""
    lines = case_lines(case)
    for name, answer in zip(names, (one, two)):
        lines += [f"{name}: {line[:600]}" for line in answer.splitlines()]
    return lines + [f"bytes: {case.hex()}"]
