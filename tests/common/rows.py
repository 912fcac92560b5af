"""The calls that are timed and counted, on the house table: texts of about 2,040 nodes read afresh, and updates of their trees, near ones and
far ones. Used by tools/bench."""
from cases import CLOSES, M, OPENS, fresh, nodes, read_case, table, update_case

house = table("house.lrt")
readings = (("682 m", [M] * 682), ("186 [ m m ]", [OPENS, M, M, CLOSES] * 186), ("409 nested", [OPENS] * 409 + [CLOSES] * 409))
old_texts = (("flat", [M] * 680), ("grouped", [OPENS, M, M, CLOSES] * 185), ("nested", [OPENS] * 408 + [CLOSES] * 408))


class Update:
    """An update of a text's tree: the edits are places with the tokens removed there, each with one code put in."""

    def __init__(self, name, codes, edits, put):
        self.name, self.codes, self.edits, self.put = name, codes, edits, put

    def case(self, more=()):
        """The judge's case of kind U; `more` codes are put in behind the last token, an edit each."""
        edits = self.edits + [(len(self.codes), 0)] * len(more)
        words = [word for place, removed in edits for word in (place, removed, 1)]
        return update_case(house, fresh(self.codes), words, self.put + list(more))

    def after(self):
        """The edited text."""
        text, at = [], 0
        for (place, removed), code in zip(self.edits, self.put):
            text, at = text + self.codes[at:place] + [code], place + removed
        return text + self.codes[at:]


def updates():
    """Fifteen updates: of each tree none, one token put in at three places, and a hundred tokens replaced."""
    found = []
    for name, codes in old_texts:
        n = len(codes)
        scattered = [place * n // 100 for place in range(100)]
        found.append(Update(f"{name}, no edit", codes, [], []))
        for where, place in (("front", 0), ("middle", n // 2), ("end", n)):
            found.append(Update(f"{name}, one at {where}", codes, [(place, 0)], [M]))
        found.append(Update(f"{name}, 100 scattered", codes, [(place, 1) for place in scattered], [codes[place] for place in scattered]))
    return found


def reading_case(codes):
    """The judge's case of kind R for a text, and what it has to say first."""
    n = len(nodes(codes))
    return read_case(house, codes), f"0 0 0 0 0 {len(codes)} {n - len(codes)}\ntree {n} {n + 1} "
