"""Which requests are admitted, and what is read off them, as docs/RULES.md has it."""

from .text import APP, NO, QUANT, UNKNOWN, VAR, derived_record

TERMS, NODES, CELLS, SYMBOLS, NAME_BYTES = 4096, 4096, 16384, 4096, 65536
PARTS, PLACES, BINDINGS, ENTRIES, ENTRY_PAIRS, ALL_PAIRS = 16, 64, 32, 64, 64, 4096


class Refusal(Exception):
    """A refusal: its number, its layer, and words for what is at fault."""

    def __init__(self, number, layer, fault=""):
        super().__init__(number, layer, fault)
        self.number = number
        self.layer = layer
        self.fault = fault

    def __str__(self):
        return ("refused %d %s %s" % (self.number, self.layer, self.fault)).rstrip()


def closed(request, term):
    return term < len(request.records) and request.records[term] == NO


def owner(request, node):
    """The term that owns a node, or None."""
    return request.owners[node] if node < len(request.owners) else None


def can_match(request, one, other):
    """Of one kind, with equally many children. The children may differ."""
    return (request.kinds[one] == request.kinds[other]
            and len(request.children[one]) == len(request.children[other]))


def parts(request):
    return request.children[request.pattern]


def bound_term(request, variable):
    """The term that a variable is bound to, or None."""
    if variable >= len(request.bound):
        return None
    item = request.bound[variable]
    return owner(request, item) if request.bound_form == "nodes" else item


def is_open_application(request, term):
    """An application that is not closed: the only kind of place with places below it."""
    return request.kinds[term][0] == APP and request.records[term] != NO


def places(request, term):
    """The number of places of a term, or one more than the limit if there are more."""
    count, waiting = 0, [term]
    while waiting and count <= PLACES:
        at = waiting.pop()
        count += 1
        if is_open_application(request, at):
            waiting.extend(request.children[at])
    return count


def variables(request, term):
    """The numbers of the variables at the places of a term."""
    found, seen, waiting = set(), set(), [term]
    while waiting:
        at = waiting.pop()
        if at in seen:
            continue
        seen.add(at)
        kind, number = request.kinds[at]
        if kind == VAR:
            found.add(number)
        elif is_open_application(request, at):
            waiting.extend(request.children[at])
    return found


def check(request):
    """Raises the first ground on which a request is refused, in the order of their numbers."""
    _check_store(request)
    _check_pattern(request)
    _check_parts(request)
    _check_bindings(request)
    _check_entry_count(request)
    _check_entries(request)


def _check_store(request):
    too_large = (len(request.kinds) > TERMS or len(request.owners) > NODES
                 or sum(map(len, request.children)) > CELLS
                 or len(request.symbols) > SYMBOLS or sum(map(len, request.symbols)) > NAME_BYTES)
    names_repeat = len(set(request.symbols)) < len(request.symbols)
    no_owner = any(term >= len(request.kinds) for term in request.owners)
    if too_large or names_repeat or no_owner or not all(_term_is_good(request, t) for t in range(len(request.kinds))):
        raise Refusal(1, "finder")


def _term_is_good(request, term):
    kind, children = request.kinds[term], request.children[term]
    if any(child >= term for child in children):
        return False
    if kind[0] == APP and kind[1] >= len(request.symbols):
        return False
    return request.records[term] == derived_record(kind, children, request.records)


def _check_pattern(request):
    pattern = request.pattern
    if pattern is None or pattern >= len(request.kinds) or request.kinds[pattern][0] != APP:
        raise Refusal(2, "finder")
    if not 1 <= len(parts(request)) <= PARTS:
        raise Refusal(2, "finder")


def _check_parts(request):
    for number, part in enumerate(parts(request)):
        if request.records[part] == UNKNOWN or places(request, part) > PLACES:
            raise Refusal(3, "finder", "part %d" % number)


def _check_bindings(request):
    if len(request.bound) > BINDINGS:
        raise Refusal(4, "finder")
    for part in parts(request):
        for variable in variables(request, part):
            term = bound_term(request, variable)
            if term is None or not closed(request, term):
                raise Refusal(4, "finder")


def _check_entry_count(request):
    if not len(parts(request)) <= len(request.entries) <= ENTRIES:
        raise Refusal(5, "finder")


def _check_entries(request):
    for number, (node, pairs) in enumerate(request.entries):
        term = owner(request, node)
        if term is None or not closed(request, term) or len(pairs) > ENTRY_PAIRS:
            raise Refusal(6, "finder", "entry %d" % number)
    table = [pair for _, pairs in request.entries for pair in pairs]
    for number, (start, end) in enumerate(table):
        if number >= ALL_PAIRS or owner(request, start) is None or owner(request, end) is None:
            raise Refusal(6, "finder", "pair %d" % number)
