"""The finder: sift, find, booking, pass and round."""

from collections import Counter

from .rules import Refusal, can_match, closed, parts
from .search import REWRITERS, Search
from .text import APP

# Each of these turns one rule into what the Rust does.
KEPT_PAIRS = "kept-pairs"
DOUBLED_ENTRY = "doubled-entry"
FAILED_EQUALITY = "failed-equality"
CLOSED_CAN_MATCH = "closed-can-match"
SECOND_FIND = "second-find-equalities"
SWITCHES = (KEPT_PAIRS, DOUBLED_ENTRY, FAILED_EQUALITY, CLOSED_CAN_MATCH, SECOND_FIND)

WAITING, USED, ASIDE = "waiting", "used", "set aside"


class Slot:
    """How a part was explained."""

    def __init__(self, coupling, entry, node, equalities):
        self.coupling = coupling
        self.entry = entry
        self.node = node
        self.equalities = equalities  # numbers at the host


class Told:
    """What a round tells."""

    def __init__(self):
        self.parts = 0
        self.pairs = 0


class Finder:
    def __init__(self, request, host, switches=frozenset()):
        self.request = request
        self.host = host
        self.switches = switches
        self.parts = parts(request)
        self.slots = [None] * len(self.parts)
        self.entries = [WAITING] * len(request.entries)
        self.aside = []  # entries, in the order in which they were set aside
        self.order = True
        self.notes = Counter()  # what happened, for the coverage of a comparison

    def open_parts(self):
        return [part for part, slot in enumerate(self.slots) if slot is None]

    def term(self, entry):
        return self.request.owners[self.request.entries[entry][0]]

    # Sift

    def sift(self):
        """Sets aside each waiting entry whose term can match no open part."""
        for entry, state in enumerate(self.entries):
            if state == WAITING and not any(self.fits(entry, part) for part in self.open_parts()):
                self.entries[entry] = ASIDE
                self.aside.append(entry)

    def fits(self, entry, part):
        term, wanted = self.term(entry), self.parts[part]
        if CLOSED_CAN_MATCH in self.switches and closed(self.request, wanted):
            return (self.request.kinds[term] == self.request.kinds[wanted]
                    and self.request.children[term] == self.request.children[wanted])
        return can_match(self.request, term, wanted)

    # Find

    def rewriter(self, kind, entry):
        """The rewriter of a pass: over the entry's pairs, by force also over all booked ones."""
        pairs = list(self.request.entries[entry][1])
        if kind == "force":
            pairs += self.booked_ends()
        aside = [self.request.entries[number][0] for number in self.aside]
        return REWRITERS[kind](self.request, self.host, pairs, aside)

    def booked_ends(self):
        return [self.host.listed[number] for slot in self.slots if slot for number in slot.equalities]

    def search(self, rewriter, entry, part):
        search = Search(self.request, rewriter, KEPT_PAIRS in self.switches)
        pairs = search.run(self.term(entry), self.parts[part])
        self.notes += search.notes
        return pairs

    def find(self, kind, part, entry):
        """A find that is given up: its pairs, or None for a miss."""
        if part >= len(self.parts) or self.slots[part] is not None:
            raise Refusal(7, "finder", "part %d" % part)
        if entry >= len(self.entries) or self.entries[entry] != WAITING:
            raise Refusal(8, "finder", "entry %d" % entry)
        return self.search(self.rewriter(kind, entry), entry, part)

    # Booking

    def make_all(self, kind, part, entry, pairs):
        """Makes an equality for each pair. A refusal names part, entry and pair."""
        numbers = []
        for number, (start, end) in enumerate(pairs):
            try:
                numbers.append(self.host.make(start, end, self.initial(kind, end), self.congruence()))
            except Refusal as refusal:
                fault = "part %d entry %d pair %d" % (part, entry, number)
                raise Refusal(refusal.number, "host", fault) from None
        return numbers

    def initial(self, kind, end):
        """Whether the ends of an equality may be apart."""
        if kind == "force":
            return True
        version = self.request.version
        return version is not None and version >= (4, 12, 3) and self.is_if(self.request.owners[end])

    def congruence(self):
        """Whether the ends of an equality may be only loosely joined."""
        version = self.request.version
        return version is not None and version <= (4, 8, 17)

    def is_if(self, term):
        kind, symbol = self.request.kinds[term]
        return kind == APP and self.request.symbols[symbol] == b"if"

    def book(self, kind, part, entry, pairs, told):
        numbers = self.make_all(kind, part, entry, pairs)
        self.slots[part] = Slot(REWRITERS[kind].coupling, entry, self.request.entries[entry][0], numbers)
        self.count_as_done(part, entry)
        told.parts += 1
        told.pairs += len(pairs)

    def count_as_done(self, part, entry):
        self.entries[entry] = USED
        self.order = self.order and part == entry

    # Pass and round

    def run_pass(self, kind, entry, told):
        """Tries an entry on the open parts. Answers whether a second find made it doubled."""
        rewriter = self.rewriter(kind, entry)
        found, refusal, doubled = False, None, False
        for part in self.open_parts():
            pairs = self.search(rewriter, entry, part)
            if pairs is None:
                continue
            if found:
                doubled = True
                self.on_second_find(kind, part, entry, pairs)
                break
            found = True
            refusal = self.try_to_book(kind, part, entry, pairs, told)
            if kind != "force":
                break
        if refusal:
            raise refusal
        return doubled

    def try_to_book(self, kind, part, entry, pairs, told):
        """Books a find. A refusal goes up at once; as the Rust has it, it only does so after the pass."""
        try:
            self.book(kind, part, entry, pairs, told)
        except Refusal as refusal:
            if FAILED_EQUALITY not in self.switches:
                raise
            self.count_as_done(part, entry)
            return refusal
        return None

    def on_second_find(self, kind, part, entry, pairs):
        """A second find is given up."""
        self.notes["doubled passes"] += 1
        if DOUBLED_ENTRY in self.switches:
            self.entries[entry] = WAITING
        if SECOND_FIND in self.switches:
            try:
                self.make_all(kind, part, entry, pairs)
            except Refusal:
                pass

    def round(self, kind):
        """Sifts, and passes each waiting entry in log order."""
        if not self.open_parts():
            raise Refusal(11, "round")
        told = Told()
        self.sift()
        for entry, state in enumerate(self.entries):
            if state == WAITING and self.open_parts() and self.run_pass(kind, entry, told):
                break
        return told
