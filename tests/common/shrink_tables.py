"""Smaller tables for a case: a production left out with all that it alone asks for; states, items, lookaheads and moves left out; bytes cut."""
from sheets import sheet as bytes_of
from sheets import whole_parts


def weight(table):
    """How much a table says: its moves, lookaheads and symbols; of a row of bytes that is no sheet those that are not 0."""
    found = whole_parts(table)
    if found is None:
        return sum(byte != 0 for byte in table)
    _, _, _, _, prods, actions, gotos, states = found
    moves = sum(word != 0 for row in actions for word in row) + sum(goto != 255 for row in gotos for goto in row)
    return moves + sum(bin(set_).count("1") for items in states for _, _, set_ in items) + sum(len(symbols) for _, symbols in prods)


def smaller(fields, parts):
    """Cases with a smaller table."""
    table = fields["table"]
    if parts is None:
        yield from cut_bytes(fields)
        return
    t, n, p, s, prods, actions, gotos, states = parts
    for nonterminal in range(n - 1, 0, -1):
        yield without_nonterminal(fields, nonterminal)
    for production in range(p - 1, 0, -1):
        yield without_production(fields, parts, production)
    yield unreached(fields, parts)
    for symbol in list(range(t - 1, 0, -1)) + list(range(128 + n - 1, 128, -1)):
        yield without_symbol(fields, parts, symbol)
    size = s // 2
    while size:
        for at in range(s - size, 0, -size):
            yield made(fields, keep_states(parts, [state for state in range(s) if not at <= state < at + size]))
        size //= 2
    for state in range(s):
        for item in range(len(states[state])):
            left = states[state][:item] + states[state][item + 1 :]
            yield made(fields, [t, n, p, s, prods, actions, gotos, states[:state] + [left] + states[state + 1 :]])
            q, d, set_ = states[state][item]
            for a in range(t):
                if set_ >> a & 1:
                    less = states[state][:item] + [(q, d, set_ & ~(1 << a))] + states[state][item + 1 :]
                    yield made(fields, [t, n, p, s, prods, actions, gotos, states[:state] + [less] + states[state + 1 :]])
        for rows, at, none in ((actions, 5, 0), (gotos, 6, 255)):
            for place, word in enumerate(rows[state]):
                if word != none:
                    row = rows[state][:place] + [none] + rows[state][place + 1 :]
                    yield made(fields, parts[:at] + [rows[:state] + [row] + rows[state + 1 :]] + parts[at + 1 :])
    yield from cut_bytes(fields)


def made(fields, parts):
    try:
        return {**fields, "table": bytes_of(*parts)}
    except ValueError:
        return None


def cut_bytes(fields):
    table = fields["table"]
    size = len(table)
    while size:
        yield {**fields, "table": table[: len(table) - size]}
        size //= 2
    for at in range(min(len(table), 400)):
        if table[at]:
            yield {**fields, "table": table[:at] + b"\0" + table[at + 1 :]}


def keep_states(parts, kept):
    """The table with these states alone; moves into others are gone."""
    t, n, p, _, prods, actions, gotos, states = parts
    number = {old: new for new, old in enumerate(kept)}

    def action(word):
        return word if not 256 <= word < 512 else 256 + number[word - 256] if word - 256 in number else 0

    return [
        t, n, p, len(kept), prods,
        [[action(word) for word in actions[old]] for old in kept],
        [[number.get(goto, 255) for goto in gotos[old]] for old in kept],
        [states[old] for old in kept],
    ]


def reached(parts):
    """The states that moves lead to from state 0, and at least two."""
    actions, gotos = parts[5], parts[6]
    found = [0]
    for state in found:
        for target in [word - 256 for word in actions[state] if 256 <= word < 512] + [goto for goto in gotos[state] if goto != 255]:
            if target < parts[3] and target not in found:
                found.append(target)
    return sorted(found) if len(found) > 1 else list(range(min(parts[3], 2)))


def unreached(fields, parts):
    return made(fields, keep_states(parts, reached(parts)))


def without_production(fields, parts, production):
    """Leaves a production out, with its items, the items that no chain leads to any more, the moves that no item calls for and the states
    that nothing leads to: an accepted table stays one, with larger sets at times. None where the old tree has the production."""
    t, n, p, s, prods, actions, gotos, states = parts
    row = fields.get("row", [])
    kinds = row[2::3]
    if 256 + production in kinds:
        return None

    def name(q):
        return q - (q > production)

    new_prods = prods[:production] + prods[production + 1 :]
    new_states, new_actions, new_gotos = [], [], []
    for state in range(s):
        items = [(name(q), d, set_) for q, d, set_ in states[state] if q != production]
        led = {at for at, (q, d, _) in enumerate(items) if d or not q}
        while True:
            after = {new_prods[items[at][0]][1][items[at][1]] for at in led if items[at][1] < len(new_prods[items[at][0]][1])}
            more = {at for at, (q, d, _) in enumerate(items) if not d and 128 + new_prods[q][0] in after} - led
            if not more:
                break
            led |= more
        new_states.append([item for at, item in enumerate(items) if at in led])
        row_of_actions = []
        for terminal, word in enumerate(actions[state]):
            gone = word == 512 + production or (256 <= word < 512 and terminal not in after)
            row_of_actions.append(0 if gone else 512 + name(word - 512) if word >= 512 else word)
        new_actions.append(row_of_actions)
        new_gotos.append([goto if 128 + b in after else 255 for b, goto in enumerate(gotos[state])])
    fewer = [t, n, p - 1, s, new_prods, new_actions, new_gotos, new_states]
    case = made(fields, keep_states(fewer, reached(fewer)))
    if case and row:
        case["row"] = [word - 1 if i >= 2 and i % 3 == 2 and word > 256 + production else word for i, word in enumerate(row)]
    return case


def without_nonterminal(fields, nonterminal):
    """Leaves out all productions of a nonterminal and then itself, if no other right side has it."""
    while fields:
        parts = whole_parts(fields["table"])
        own = [i for i, (left, _) in enumerate(parts[4]) if left == nonterminal] if parts else []
        if not own:
            return parts and without_symbol(fields, parts, 128 + nonterminal)
        fields = without_production(fields, parts, own[-1])
    return None


def without_symbol(fields, parts, symbol):
    """Leaves out a symbol that no production and no text has."""
    t, n, p, s, prods, actions, gotos, states = parts
    texts = [code for name in ("codes", "put") for code in fields.get(name, [])] + fields.get("row", [])[2::3]
    if any(symbol == left + 128 or symbol in symbols for left, symbols in prods) or (symbol < 128 and symbol in texts):
        return None

    def name(x):
        return x - 1 if x > symbol and (x < 128) == (symbol < 128) else x

    new_prods = [(name(128 + left) - 128, [name(x) for x in symbols]) for left, symbols in prods]
    if symbol >= 128:
        return made(fields, [t, n - 1, p, s, new_prods, actions, [row[: symbol - 128] + row[symbol - 127 :] for row in gotos], states])
    below = (1 << symbol) - 1
    new_states = [[(q, d, set_ & below | (set_ >> symbol + 1) << symbol) for q, d, set_ in items] for items in states]
    new_actions = [row[:symbol] + row[symbol + 1 :] for row in actions]
    case = made(fields, [t - 1, n, p, s, new_prods, new_actions, gotos, new_states])
    if case:
        for field in ("codes", "put"):
            if field in case:
                case[field] = [code - (symbol < code < 128) for code in case[field]]
        if "row" in case:
            case["row"] = [word - 1 if i >= 2 and i % 3 == 2 and symbol < word < 128 else word for i, word in enumerate(case["row"])]
    return case
