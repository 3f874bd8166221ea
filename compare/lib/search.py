"""The rewriters and the search, as docs/RULES.md has them."""

from collections import Counter

from .rules import bound_term, can_match
from .text import NO, VAR


class Basic:
    """Offers the logged pairs one after the other, each as it stands."""

    coupling = "Exact"

    def __init__(self, request, host, pairs, aside):
        self.owners = request.owners
        self.pairs = [pair for pair in pairs if pair[0] != pair[1]]
        self.state = 0  # the number of pairs passed

    def finished(self):
        return self.state == len(self.pairs)

    def query(self, term, pattern_term):
        if self.finished():
            return None
        start, end = self.pairs[self.state]
        if self.owners[start] != term:
            return None
        self.state += 1
        return start, [end]


class Complex:
    """Offers the far ends of all pairs, read both ways, that leave from a node of the term."""

    coupling = "SwappedEqs"

    def __init__(self, request, host, pairs, aside):
        self.state = 0  # it never moves
        self.offers = {}
        for start, end in pairs:
            if start != end:
                self._read(request.owners[start], start, end)
                self._read(request.owners[end], end, start)

    def _read(self, term, near, far):
        self.offers.setdefault(term, (near, []))[1].append(far)

    def finished(self):
        return True

    def query(self, term, pattern_term):
        return self.offers.get(term)


class Custom:
    """Offers the live node of the pattern term if the host calls it the same as the term's."""

    coupling = "MissingEqs"

    def __init__(self, request, host, pairs, aside):
        self.below = Complex(request, host, pairs, aside)
        self.host = host
        self.state = 0

    def finished(self):
        return self.below.finished()

    def query(self, term, pattern_term):
        start, end = self.host.live(term), self.host.live(pattern_term)
        if start is not None and end is not None and self.host.same(start, end):
            return start, [end]
        return self.below.query(term, pattern_term)


class Force:
    """Offers the live node of the pattern term whether or not the two are the same."""

    coupling = "AddedEqs"

    def __init__(self, request, host, pairs, aside):
        self.below = Complex(request, host, pairs, aside)
        self.host = host
        self.aside = aside
        self.state = 0

    def finished(self):
        return self.below.finished()

    def query(self, term, pattern_term):
        start, end = self.host.live(term), self.host.live(pattern_term)
        if start is not None and end is not None:
            return start, [end]
        answer = self.below.query(term, pattern_term)
        if answer is not None:
            return answer
        if end is not None or start is None or not self.aside:
            return None
        return start, self.aside


REWRITERS = {"basic": Basic, "complex": Complex, "custom": Custom, "force": Force}


class Search:
    """One search by one rewriter.

    `keeps_pairs` turns one rule into what the Rust does: where children fail, the rewriter is left
    in the state that they brought it to.
    """

    def __init__(self, request, rewriter, keeps_pairs=False):
        self.request = request
        self.rewriter = rewriter
        self.keeps_pairs = keeps_pairs
        self.notes = Counter()  # what happened, for the coverage of a comparison

    def run(self, term, part):
        """The pairs that lead from a term to a part, or None for a miss."""
        self.rewriter.state = 0
        pairs = self.place(term, part)
        if pairs is not None and not self.rewriter.finished():
            self.notes["found with pairs left over, so missed"] += 1
            return None
        return pairs

    def query(self, term, pattern_term):
        self.notes["queries"] += 1
        return self.rewriter.query(term, pattern_term) or (None, [])

    def place(self, b, s):
        if b == s:
            return []
        kind, number = self.request.kinds[s]
        if kind == VAR:
            return self.place(b, bound_term(self.request, number))
        if self.request.records[s] == NO:
            return self.exact(b, s)
        return self.application(b, s)

    def exact(self, b, s):
        """At a closed term: the first offer that it owns."""
        before = self.rewriter.state
        start, offers = self.query(b, s)
        for end in offers:
            if self.request.owners[end] == s:
                return [(start, end)]
        self.rewriter.state = before
        return None

    def application(self, b, s):
        """At another application: the term as it is, and then the offers in order."""
        before = self.rewriter.state
        pairs = self.children(b, s)
        if pairs is not None:
            return pairs
        if self.rewriter.state != before:
            self.notes["failed children that had passed a pair"] += 1
        if self.keeps_pairs:
            before = self.rewriter.state
        self.rewriter.state = before
        start, offers = self.query(b, s)
        after = self.rewriter.state
        for end in offers:
            pairs = self.children(self.request.owners[end], s)
            if pairs is not None:
                if offers is getattr(self.rewriter, "aside", None):
                    self.notes["rewritten to a node set aside"] += 1
                return [(start, end)] + pairs
            self.notes["failed offers"] += 1
            self.rewriter.state = after
        self.rewriter.state = before
        return None

    def children(self, b, s):
        """The pairs of all children, if kind and child count agree and no child fails."""
        if not can_match(self.request, b, s):
            return None
        found = []
        for child, wanted in zip(self.request.children[b], self.request.children[s]):
            pairs = self.place(child, wanted)
            if pairs is None:
                return None
            found += pairs
        return found
