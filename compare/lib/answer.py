"""What is printed for a request, line by line, as `explain --terse` prints it."""

from .finder import Finder
from .host import Host
from .rules import Refusal, can_match, check, owner, parts, places
from .search import REWRITERS
from .text import KINDS, read

MISSED = {
    "basic": "missed (its own order of use)",
    "complex": "missed (no derivation exists)",
    "custom": "missed (no derivation exists)",
    "force": "missed (no derivation exists)",
}


class Answer:
    """The lines of an admitted request: what it holds, and what comes of it."""

    def __init__(self, request, switches=frozenset()):
        self.request = request
        self.host = Host(request)
        self.finder = Finder(request, self.host, switches)

    def description(self):
        lines = ["admitted"]
        for number, part in enumerate(parts(self.request)):
            lines.append("part %d: term %d places %d" % (number, part, places(self.request, part)))
        lines += [self.entry_line(number) for number in range(len(self.request.entries))]
        for term in range(len(self.request.kinds)):
            if self.host.live(term) is not None:
                lines.append("live %d %d" % (term, self.host.live(term)))
        lines += ["same %d %s" % (node, numbers(others)) for node, others in self.host.same_lists()]
        return lines

    def entry_line(self, number):
        node, pairs = self.request.entries[number]
        term = owner(self.request, node)
        fitting = [i for i, part in enumerate(parts(self.request)) if can_match(self.request, term, part)]
        return "entry %d: node %d term %d pairs %d matches %s" % (
            number, node, term, len(pairs), numbers(fitting) or "none")

    def outcome(self):
        """The lines of the actions, and the tables after the last one."""
        lines = [self.act(*action) for action in self.request.actions]
        if all(action[0] == "offers" for action in self.request.actions):
            lines += self.all_rounds()
        return lines + self.tables()

    def all_rounds(self):
        lines = []
        for kind in KINDS:
            if self.finder.open_parts():
                lines.append(self.round(kind))
        return lines

    def act(self, word, kind, *given):
        return {"find": self.find, "round": self.round, "offers": self.offers}[word](kind, *given)

    def round(self, kind):
        try:
            told = self.finder.round(kind)
        except Refusal as refusal:
            return "round %s: %s" % (kind, refusal)
        return "round %s: parts %d pairs %d" % (kind, told.parts, told.pairs)

    def find(self, kind, part, entry):
        head = "find %s %d %d: " % (kind, part, entry)
        try:
            found = self.finder.find(kind, part, entry)
        except Refusal as refusal:
            return head + str(refusal)
        return head + (MISSED[kind] if found is None else pairs_text(found))

    def offers(self, kind, entry, term, pattern_term):
        """What a rewriter over the entry's pairs alone offers first, with nothing set aside."""
        head = "offers %s %d %d %d: " % (kind, entry, term, pattern_term)
        if entry >= len(self.request.entries):
            return head + str(Refusal(8, "finder", "entry %d" % entry))
        rewriter = REWRITERS[kind](self.request, self.host, self.request.entries[entry][1], [])
        answer = rewriter.query(term, pattern_term)
        return head + ("nothing" if answer is None else "from %d to %s" % (answer[0], numbers(answer[1])))

    def tables(self):
        lines = [self.slot_line(part, slot) for part, slot in enumerate(self.finder.slots)]
        lines.append("order " + ("true" if self.finder.order else "false"))
        lines.append(("aside " + numbers(self.finder.aside)).rstrip())
        return lines

    def listed_line(self):
        """How many equalities the host lists. `explain` does not print this."""
        return "listed %d" % len(self.host.listed)

    def slot_line(self, part, slot):
        if slot is None:
            return "part %d: open" % part
        ends = [self.host.listed[number] for number in slot.equalities]
        return "part %d: %s entry %d node %d %s" % (part, slot.coupling, slot.entry, slot.node, pairs_text(ends))


def numbers(items):
    return " ".join(map(str, items))


def pairs_text(pairs):
    return " ".join(["pairs"] + ["%d:%d" % pair for pair in pairs])


def refusal_of(request):
    """The refusal of a request, or None if it is admitted."""
    try:
        check(request)
    except Refusal as refusal:
        return refusal
    return None


def lines_of(request, switches=frozenset()):
    """All lines of a request but the first."""
    if isinstance(request, str):
        return [request]
    refusal = refusal_of(request)
    if refusal:
        return [str(refusal)]
    answer = Answer(request, switches)
    return answer.description() + answer.outcome()


def print_all(data, out, switches=frozenset(), listed=False):
    """Answers a whole text. With `listed`, also says how many equalities the host lists at the end."""
    count = 0
    for begun, item in read(data):
        if not begun:
            out.write(item + "\n")
            continue
        out.write("request #%d\n" % count)
        count += 1
        if not listed or isinstance(item, str) or refusal_of(item):
            lines = lines_of(item, switches)
        else:
            answer = Answer(item, switches)
            lines = answer.description() + answer.outcome() + [answer.listed_line()]
        out.write("".join(line + "\n" for line in lines))
