"""A source file whose words are taken out, put in and looked at."""

from bisect import bisect_left

from rattle_source import Reader


class Edited:
    """A source file: the text of each of its words, whether it still stands, and what is put before and behind it."""

    def __init__(self, path, text):
        self.reader = Reader(path, text)
        self.source = self.reader.source
        self.texts = [word.text for word in self.source.words]
        self.live = [True] * len(self.texts)
        self.prefix, self.added = {}, {}

    def cut_line(self, first, last):
        """An attribute with the space behind it."""
        while last < len(self.texts) and self.source.words[last].kind == "space":
            last += 1
        self.cut(first, last)

    def cut(self, first, last):
        for at in range(first, last):
            self.texts[at], self.live[at] = "", False

    def put(self, place, text):
        self.texts[place] = text

    def bare(self, first=0, last=None):
        last = len(self.texts) if last is None else last
        return [at for at in self.source.bare if first <= at < last and self.live[at]]

    def cut_item(self, item):
        """An item with its documentation, its attributes and the comments right above."""
        first = item.first
        while first > 0 and self.source.words[first - 1].kind in ("space", "comment"):
            word = self.source.words[first - 1]
            if word.kind == "space" and word.text.count("\n") > 1:
                break
            first -= 1
        if first > 0 and self.source.words[first].kind == "comment" and self.source.words[first - 1].kind != "space":
            first += 1
        self.cut(first, item.last)

    def before(self, place):
        at = bisect_left(self.source.bare, place) - 1
        while at > 0 and not self.live[self.source.bare[at]]:
            at -= 1
        return self.source.bare[at]

    def behind(self, place):
        at = bisect_left(self.source.bare, place)
        while at < len(self.source.bare) - 1 and not self.live[self.source.bare[at]]:
            at += 1
        return self.source.bare[at]
