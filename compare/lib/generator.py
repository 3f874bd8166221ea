"""Makes requests at random. One seed and one number give one request, always the same."""

import random

from .draft import Draft
from .text import APP, KINDS, VAR

VERSIONS = (
    (4, 8, 17), (4, 8, 18), (4, 8, 16), (4, 12, 2), (4, 12, 3), (4, 12, 4), (4, 9, 0), (4, 13, 0),
    (0, 0, 0), (3, 99, 99), (5, 0, 0), (4, 8, 2**64 - 1), (2**64 - 1, 0, 0),
)


def generate(seed, number):
    """The text of one request."""
    rng = random.Random("%s/%s" % (seed, number))
    family = rng.choices(FAMILIES, WEIGHTS)[0]
    draft = Draft(rng)
    family(draft)
    return draft.text()


# What all families share


def choose_version(draft):
    if draft.rng.random() < 0.75:
        draft.version = draft.rng.choice(VERSIONS)


def constants(draft, count):
    return [draft.app("abcdeijk"[i]) for i in range(count)]


def random_closed(draft, depth, names):
    """A random closed term over the functions in `names`, a list of (name, child count)."""
    rng = draft.rng
    if depth == 0 or rng.random() < 0.4:
        return draft.app(rng.choice("abc"))
    name, count = rng.choice(names)
    return draft.app(name, *(random_closed(draft, depth - 1, names) for _ in range(count)))


def random_pattern(draft, depth, names, variables):
    """A random pattern term over variables below `variables`."""
    rng = draft.rng
    roll = rng.random()
    if depth == 0 or roll < 0.3:
        return draft.var(rng.randrange(variables))
    if roll < 0.4:
        return random_closed(draft, 1, names)
    name, count = rng.choice(names)
    return draft.app(name, *(random_pattern(draft, depth - 1, names, variables) for _ in range(count)))


def random_part(draft, depth, names, variables):
    """A pattern term that is mostly an open application, as parts are."""
    rng = draft.rng
    roll = rng.random()
    if roll < 0.015:
        return draft.var(rng.randrange(variables))
    if roll < 0.10:
        return random_closed(draft, 2, names)
    name, count = rng.choice(names)
    return draft.app(name, *(random_pattern(draft, depth - 1, names, variables) for _ in range(count)))


def part_count(rng):
    return rng.choice((1, 1, 1, 2, 2, 2, 3, 3, 4, 5, rng.randint(1, 16)))


def set_pattern(draft, parts):
    draft.pattern = draft.app("p", *parts)
    draft.parts = parts


# Entries that lead to a part


class Weaver:
    """Makes a closed term and pairs that lead from it to a pattern term."""

    def __init__(self, draft, names, rewriting):
        self.draft = draft
        self.names = names
        self.rewriting = rewriting  # how often a place is rewritten

    def chance(self, share):
        return self.draft.rng.random() < share

    def to_part(self, part):
        """As `to_place`, but the term mostly can match the part, so that a sift leaves it."""
        for _ in range(4):
            b, pairs = self.to_place(part)
            if self.draft.terms[b][:2] == self.draft.terms[part][:2] or self.chance(0.1):
                break
        return b, pairs

    def to_place(self, s):
        kind, number, _ = self.draft.terms[s]
        if kind == VAR:
            return self.to_closed(self.draft.bound_term(number))
        if self.draft.closed[s]:
            return self.to_closed(s)
        return self.to_application(s)

    def to_closed(self, target):
        if not self.chance(self.rewriting):
            return target, []
        b = random_closed(self.draft, 1, self.names)
        if b == target:
            return target, []
        return b, [(self.draft.node(b), self.draft.node(target))]

    def to_application(self, s):
        if not self.chance(self.rewriting * 0.6):
            return self.by_children(s)
        target, pairs = self.by_children(s)
        b, before = self.start_of_rewrite(s)
        if b == target:
            return target, pairs
        return b, before + [(self.draft.node(b), self.draft.node(target))] + pairs

    def by_children(self, s):
        found = [self.to_place(child) for child in self.draft.terms[s][2]]
        b = self.draft.app(self.draft.name(s), *(term for term, _ in found))
        return b, [pair for _, pairs in found for pair in pairs]

    def start_of_rewrite(self, s):
        """A term to rewrite, and pairs that stand before the rewrite: decoys, and pairs of children that fail."""
        if self.chance(0.5):
            return random_closed(self.draft, 1, self.names), []
        children = [self.to_place(child) for child in self.draft.terms[s][2]]
        passed = [pair for _, pairs in children[:-1] for pair in pairs]
        spoilt = [term for term, _ in children[:-1]] + [random_closed(self.draft, 1, self.names)]
        b = self.draft.app(self.draft.name(s), *spoilt)
        before = passed if self.chance(0.5) else []
        if self.chance(0.3):
            decoy = self.draft.app(self.draft.name(s), *(random_closed(self.draft, 1, self.names) for _ in spoilt))
            before.append((self.draft.node(b), self.draft.node(decoy)))
        return b, before


def add_entry(draft, term, pairs):
    draft.joins += pairs
    draft.entries.append((draft.node(term), disturbed(draft, pairs)))


def disturbed(draft, pairs):
    """The pairs as a log may have them: swapped, reordered, doubled, some missing, some too many."""
    rng = draft.rng
    pairs = list(pairs)
    roll = rng.random()
    if roll < 0.5:
        pass
    elif roll < 0.62:
        pairs = [pair if rng.random() < 0.5 else (pair[1], pair[0]) for pair in pairs]
    elif roll < 0.70:
        rng.shuffle(pairs)
    elif roll < 0.85:
        share = rng.random()
        pairs = [pair for pair in pairs if rng.random() < share]
    else:
        for _ in range(rng.randint(1, 3)):
            pairs.insert(rng.randint(0, len(pairs)), random_pair(draft, pairs))
    if rng.random() < 0.1:
        node = rng.randrange(len(draft.owners)) if draft.owners else None
        if node is not None:
            pairs.insert(rng.randint(0, len(pairs)), (node, node))
    return pairs[:64]


def random_pair(draft, pairs):
    rng = draft.rng
    if pairs and rng.random() < 0.4:
        return rng.choice(pairs)
    term = rng.choice(draft.closed_terms())
    other = rng.choice(draft.closed_terms())
    if rng.random() < 0.03:
        other = rng.randrange(len(draft.terms))
    return draft.node(term), draft.node(other)


# The host


def choose_host(draft):
    choose_live(draft)
    choose_classes(draft)


def choose_live(draft):
    rng = draft.rng
    share = rng.choice((0.0, 0.4, 0.8, 0.95, 1.0, 1.0))
    for term, nodes in draft.nodes_of.items():
        if draft.closed[term] and rng.random() < share:
            draft.live.append((term, rng.choice(nodes)))
    if rng.random() < 0.1:
        draft.live.append((rng.randrange(len(draft.terms) + 1), rng.randrange(len(draft.owners) + 2)))


def choose_classes(draft):
    rng = draft.rng
    draft.class_form = rng.choice(("class", "link"))
    loosely = rng.choices((0.0, 0.6, 0.9, 1.0), (1, 1, 2, 8))[0]
    strictly = rng.choices((0.0, 0.8, 0.95, 1.0), (1, 1, 2, 8))[0]
    loose, strict = list(range(len(draft.owners))), list(range(len(draft.owners)))
    stray = [random_ends(draft) for _ in range(rng.choice((0, 0, 1, 3)))]
    for start, end in draft.joins + stray:
        if rng.random() < loosely:
            join(loose, start, end)
            if rng.random() < strictly:
                join(strict, start, end)
    write_classes(draft, loose, strict)


def random_ends(draft):
    return draft.rng.randrange(len(draft.owners)), draft.rng.randrange(len(draft.owners))


def join(names, one, other):
    """Puts two nodes into one class. Each node bears the lowest number of its class."""
    low, high = sorted((names[one], names[other]))
    if low != high:
        names[:] = [low if name == high else name for name in names]


def write_classes(draft, loose, strict):
    rng = draft.rng
    number = list(range(len(draft.owners)))
    if draft.class_form == "class" and rng.random() < 0.5:
        rng.shuffle(number)
    row = class_row if draft.class_form == "class" else link_row
    for node in range(len(draft.owners)):
        alone = loose.count(loose[node]) == 1 and strict.count(strict[node]) == 1
        if not alone or rng.random() < 0.3:
            draft.classes.append((node, row(rng, number, loose, node), row(rng, number, strict, node)))


def class_row(rng, number, names, node):
    if names.count(names[node]) == 1 and rng.random() < 0.1:
        return len(names) + rng.randrange(3)  # names no node, so the node is alone
    return number[names[node]]


def link_row(rng, number, names, node):
    """A lower node of the class, or something that is no link for a root."""
    lower = [other for other in range(node) if names[other] == names[node]]
    if lower:
        return rng.choice(lower)
    return rng.choice((node, node, len(names), node + 1))


# What to do


def choose_actions(draft, share=0.5):
    """Nothing, so that the four rounds are run, or a few rounds and finds."""
    rng = draft.rng
    if rng.random() >= share:
        return
    for _ in range(rng.choice((1, 1, 2, 2, 3, 4, 6))):
        roll = rng.random()
        if roll < 0.5:
            draft.actions.append(("round", rng.choice(KINDS)))
        elif roll < 0.9:
            part, entry = rng.randrange(len(draft.parts)), rng.randrange(len(draft.entries))
            if rng.random() < 0.4:
                entry = min(part, entry)
            if rng.random() < 0.03:
                part, entry = part + rng.randrange(20), entry + rng.randrange(70)
            draft.actions.append(("find", rng.choice(KINDS), part, entry))
        else:
            term, other = rng.randrange(len(draft.terms)), rng.randrange(len(draft.terms))
            draft.actions.append(("offers", rng.choice(KINDS), rng.randrange(len(draft.entries)), term, other))


# Families


def function_names(rng):
    names = [("f", 1), ("g", 1), ("h", 2)]
    if rng.random() < 0.4:
        names.append((rng.choice(("if", "if", "if", "iff", "If", "\u00eff")), rng.choice((1, 2, 3, 3, 3))))
    if rng.random() < 0.2:
        names.append(("t", 3))
    rng.shuffle(names)
    return names[:rng.randint(2, len(names))]


def woven(draft, parts=None, depth=None):
    """Parts, and for each an entry that leads to it, more or less well logged."""
    rng = draft.rng
    names = function_names(rng)
    constants(draft, 3)
    variables = rng.randint(1, 4)
    for _ in range(variables):
        draft.bind(random_closed(draft, 2, names))
    parts = parts or part_count(rng)
    depth = depth or rng.choice((1, 2, 2, 3))
    set_pattern(draft, [random_part(draft, depth, names, variables) for _ in range(parts)])
    weaver = Weaver(draft, names, rng.choice((0.2, 0.5, 0.7)))
    add_part_entries(draft, weaver)
    add_other_entries(draft, weaver)
    arrange_entries(draft)
    if rng.random() < 0.1:
        add_odd_nodes(draft)
    choose_version(draft)
    choose_host(draft)
    choose_actions(draft)


def add_part_entries(draft, weaver):
    for part in draft.parts:
        add_entry(draft, *weaver.to_part(part))


def add_other_entries(draft, weaver):
    """Entries that no part needs: a second one for a part, or one that only a place below can use."""
    rng = draft.rng
    room = 64 - len(draft.entries)
    for _ in range(min(room, rng.choice((0, 1, 2, 3, len(draft.parts), len(draft.parts), rng.randint(0, 48))))):
        roll = rng.random()
        if roll < 0.6:
            add_entry(draft, *weaver.to_part(rng.choice(draft.parts)))
        elif roll < 0.85:
            add_entry(draft, *weaver.to_place(rng.choice(below(draft, rng.choice(draft.parts)))))
        else:
            add_entry(draft, random_closed(draft, 2, weaver.names), [])


def add_odd_nodes(draft):
    """Nodes of terms that are not closed, and pairs with them."""
    rng = draft.rng
    inner = draft.quant(rng.choice((0, 1, 2**64 - 1)), *draft.parts[:1])
    odd = [draft.pattern, inner, draft.var(rng.choice((0, 9, 2**40))), draft.app("f", inner)] + draft.parts
    for _ in range(rng.randint(1, 3)):
        node, pairs = rng.choice(draft.entries)
        start, end = draft.node(draft.owners[node]), draft.node(rng.choice(odd))
        draft.joins.append((start, end))
        pairs.insert(rng.randint(0, len(pairs)), (start, end))
        del pairs[64:]


def below(draft, part):
    """The terms at the places below a part, or the part if there are none."""
    children = draft.terms[part][2]
    if draft.closed[part] or not children:
        return [part]
    return [place for child in children for place in [child] + (below(draft, child) if draft.terms[child][2] else [])]


def arrange_entries(draft):
    if draft.rng.random() < 0.35:
        draft.rng.shuffle(draft.entries)


def dense(draft):
    """A small store with many equalities, so that a search often has to turn back."""
    rng = draft.rng
    names = [("f", 1), ("h", 2)] if rng.random() < 0.7 else [("f", 1), ("if", 2)]
    constants(draft, 3)
    variables = rng.randint(1, 2)
    for _ in range(variables):
        draft.bind(random_closed(draft, 1, names))
    parts = [random_part(draft, rng.choice((1, 2, 2, 3)), names, variables) for _ in range(rng.randint(1, 3))]
    set_pattern(draft, parts)
    weaver = Weaver(draft, names, rng.choice((0.3, 0.6)))
    for _ in range(len(parts) + rng.randint(0, 3)):
        term, pairs = weaver.to_part(rng.choice(parts))
        draft.joins += pairs
        pairs = list(pairs)
        for _ in range(rng.randint(0, 5)):
            pairs.insert(rng.randint(0, len(pairs)), random_pair(draft, pairs))
        draft.entries.append((draft.node(term), pairs))
    choose_version(draft)
    choose_host(draft)
    choose_actions(draft, 0.6)


def twins(draft):
    """Parts of one shape, so that one entry may explain several, and rounds by force."""
    rng = draft.rng
    name, count = rng.choice((("f", 1), ("h", 2), ("if", 3)))
    letters = constants(draft, rng.randint(2, 4))
    variables = rng.randint(1, 3)
    for _ in range(variables):
        draft.bind(rng.choice(letters))
    parts = []
    for _ in range(rng.randint(2, 5)):
        parts.append(draft.app(name, *(twin_child(draft, variables) for _ in range(count))))
    set_pattern(draft, parts)
    weaver = Weaver(draft, [(name, count), ("g", 1)], rng.choice((0.1, 0.5)))
    for _ in range(len(parts) + rng.randint(0, 4)):
        if rng.random() < 0.8:
            add_entry(draft, *weaver.to_part(rng.choice(parts)))
        else:
            add_entry(draft, draft.app("g", rng.choice(letters)), [])
    choose_version(draft)
    choose_host(draft)
    for _ in range(rng.randint(0, 4)):
        draft.actions.append(("round", rng.choice(("force", "force", rng.choice(KINDS)))))
    if draft.actions and rng.random() < 0.3:
        draft.actions.append(("find", "force", rng.randrange(len(parts)), rng.randrange(len(draft.entries))))


def twin_child(draft, variables):
    rng = draft.rng
    roll = rng.random()
    if roll < 0.6:
        return draft.var(rng.randrange(variables))
    if roll < 0.8:
        return draft.app(rng.choice("ab"))
    return draft.app("g", draft.var(rng.randrange(variables)))


def alike_closed(draft):
    """Closed parts, and entries with the same symbol and other children."""
    rng = draft.rng
    constants(draft, 3)
    names = [("f", 1), ("h", 2)]
    parts = [random_closed(draft, 2, names) for _ in range(rng.randint(1, 3))]
    parts += [draft.app("f", draft.var(0))] * rng.randint(0, 1)
    draft.bind(draft.app("a"))
    set_pattern(draft, parts)
    weaver = Weaver(draft, names, 0.5)
    for _ in range(len(parts) + rng.randint(0, 3)):
        part = rng.choice(parts)
        if draft.terms[part][0] == APP and rng.random() < 0.6:
            near = draft.app(draft.name(part), *(random_closed(draft, 1, names) for _ in draft.terms[part][2]))
            add_entry(draft, near, [(draft.node(near), draft.node(part))] if near != part and draft.closed[part] else [])
        else:
            add_entry(draft, *weaver.to_place(part))
    choose_version(draft)
    choose_host(draft)
    choose_actions(draft)


def deep(draft):
    """Parts with many places and few equalities."""
    rng = draft.rng
    constants(draft, 3)
    draft.bind(draft.app("a"))
    draft.bind(draft.app("b"))
    parts = [deep_part(draft, rng.choice((20, 40, 62, 63, 64))) for _ in range(rng.randint(1, 2))]
    set_pattern(draft, parts)
    weaver = Weaver(draft, [("f", 1)], rng.choice((0.0, 0.02, 0.1)))
    for part in parts + [rng.choice(parts)] * rng.randint(0, 2):
        add_entry(draft, *weaver.to_place(part))
    choose_version(draft)
    choose_host(draft)
    choose_actions(draft, 0.3)


def deep_part(draft, places):
    """A part with so many places: a chain, or a wide application over short chains."""
    rng = draft.rng
    if rng.random() < 0.5:
        return chain(draft, places)
    children, left = [], places - 1
    while left:
        length = min(left, rng.randint(1, 4))
        children.append(chain(draft, length))
        left -= length
    return draft.app("w", *children)


def chain(draft, places):
    term = draft.var(draft.rng.randrange(2))
    for _ in range(places - 1):
        term = draft.app("f", term)
    return term


def by_aside(draft):
    """Places that only the nodes set aside can fill: a part f(g(x)), an entry f(c) and one of g(t)."""
    rng = draft.rng
    letters = constants(draft, 3)
    draft.bind(rng.choice(letters))
    inner = draft.app("g", draft.var(0))
    parts = [draft.app("f", inner) for _ in range(rng.randint(1, 2))]
    parts += [draft.app("h", inner, draft.app("f", draft.var(0)))] * rng.randint(0, 1)
    set_pattern(draft, parts)
    weaver = Weaver(draft, [("f", 1), ("g", 1)], 0.3)
    for _ in range(rng.randint(1, 3)):
        add_entry(draft, draft.app("g", rng.choice(letters)), [])
    for part in parts * rng.randint(1, 2):
        spoilt = [rng.choice(letters) if rng.random() < 0.7 else weaver.to_place(child)[0]
                  for child in draft.terms[part][2]]
        add_entry(draft, draft.app(draft.name(part), *spoilt), [])
    for term in draft.closed_terms():
        draft.node(term)
    arrange_entries(draft)
    choose_version(draft)
    choose_host(draft)
    draft.actions = [("round", "force")] * rng.randint(0, 3)
    if draft.actions and rng.random() < 0.5:
        draft.actions.append(("find", "force", rng.randrange(len(parts)), rng.randrange(len(draft.entries))))


# Both sides of each limit


def limits(draft):
    rng = draft.rng
    over = rng.choice((-1, 0, 0, 1))
    rng.choice(LIMITS)(draft, over)


def plain(draft, parts=None):
    woven(draft, parts, depth=2)


def limit_parts(draft, over):
    plain(draft, parts=16 + over)


def limit_terms(draft, over):
    plain(draft)
    symbol = draft.symbol("a")
    draft.terms += [(APP, symbol, ())] * (4096 + over - len(draft.terms))


def limit_nodes(draft, over):
    plain(draft)
    draft.owners += [0] * (4096 + over - len(draft.owners))


def limit_cells(draft, over):
    plain(draft)
    there = sum(len(children) for _, _, children in draft.terms)
    draft.terms.append((APP, 0, (0,) * (16384 + over - there)))


def limit_symbols(draft, over):
    plain(draft)
    draft.symbols += ["s%d" % i for i in range(4096 + over - len(draft.symbols))]


def limit_names(draft, over):
    plain(draft)
    there = sum(map(len, draft.symbols))
    draft.symbols.append("x" * (65536 + over - there))


def limit_places(draft, over):
    rng = draft.rng
    constants(draft, 3)
    draft.bind(draft.app("a"))
    draft.bind(draft.app("b"))
    part = deep_part(draft, 64 + over)
    set_pattern(draft, [part])
    add_entry(draft, *Weaver(draft, [("f", 1)], 0.05).to_place(part))
    choose_version(draft)
    choose_host(draft)


def limit_bindings(draft, over):
    plain(draft)
    while len(draft.bound) < 32 + over:
        draft.bind(draft.rng.choice(draft.closed_terms()))


def limit_entries(draft, over):
    plain(draft)
    while len(draft.entries) < 64 + over:
        draft.entries.append(draft.rng.choice(draft.entries))


def limit_few_entries(draft, over):
    plain(draft)
    draft.entries = draft.entries[:len(draft.parts) - over]


def limit_pairs(draft, over):
    """An entry with so many pairs that a wide part uses all of them."""
    rng = draft.rng
    a, b = draft.app("a"), draft.app("b")
    draft.bind(b)
    part = draft.app("w", *([draft.var(0)] * 63))
    set_pattern(draft, [part])
    start, end = [draft.add_node(a) for _ in range(3)], [draft.add_node(b) for _ in range(3)]
    whole, other = draft.app("w", *([a] * 63)), draft.app("w", *([a] * 62 + [draft.app("c")]))
    pairs = [(draft.node(other), draft.node(whole))]
    pairs += [(rng.choice(start), rng.choice(end)) for _ in range(63 + over)]
    draft.joins += pairs
    draft.entries.append((draft.node(other), pairs))
    choose_version(draft)
    choose_host(draft)


def limit_all_pairs(draft, over):
    """All entries with all pairs that they may have."""
    plain(draft)
    while len(draft.entries) < 64:
        draft.entries.append(draft.rng.choice(draft.entries))
    full = []
    for node, pairs in draft.entries:
        refl = [(node, node)] * (64 - len(pairs))
        full.append((node, (refl + pairs)[-64:]))
    if over > 0:
        full[-1] = (full[-1][0], full[-1][1] + [(0, 0)])
    draft.entries = full


LIMITS = (limit_parts, limit_terms, limit_nodes, limit_cells, limit_symbols, limit_names, limit_places,
          limit_bindings, limit_entries, limit_few_entries, limit_pairs, limit_all_pairs)


# Requests that are refused


def broken(draft):
    woven(draft)
    draft.rng.choice(BREAKS)(draft)


def break_name(draft):
    draft.symbols.append(draft.symbols[0])


def break_child(draft):
    place = draft.rng.randrange(len(draft.terms))
    draft.terms.append((APP, 0, (len(draft.terms) + place,)))


def break_symbol(draft):
    draft.terms.append((APP, len(draft.symbols) + draft.rng.randrange(3), ()))


def break_owner(draft):
    draft.owners.append(len(draft.terms) + draft.rng.randrange(3))


def break_mark(draft):
    term = draft.rng.randrange(len(draft.terms))
    draft.extra_lines.append("mark %d %s" % (term, draft.rng.choice(("no", "yes", "unknown"))))


def break_pattern(draft):
    draft.pattern = draft.rng.choice((None, len(draft.terms), draft.app("a"), draft.var(0), draft.quant(0, 0)))


def break_part(draft):
    inner = draft.quant(draft.rng.randrange(2), *draft.parts[:1])
    parts = list(draft.parts)
    parts[draft.rng.randrange(len(parts))] = draft.rng.choice((inner, draft.app("f", inner)))
    draft.pattern = draft.app("p", *parts)


def break_binding(draft):
    rng = draft.rng
    place = rng.randrange(len(draft.bound))
    draft.bound[place] = rng.choice((len(draft.terms) + len(draft.owners), 2**64 - 1, draft.pattern))


def break_entries(draft):
    draft.entries = draft.entries[:len(draft.parts) - 1]


def break_entry(draft):
    rng = draft.rng
    place = rng.randrange(len(draft.entries))
    node = rng.choice((len(draft.owners) + 1, 2**64 - 1, draft.add_node(draft.pattern)))
    draft.entries[place] = (node, draft.entries[place][1])


def break_pair(draft):
    rng = draft.rng
    place = rng.randrange(len(draft.entries))
    node, pairs = draft.entries[place]
    pairs = pairs[:40] + [rng.choice(((0, len(draft.owners)), (2**64 - 1, 0)))]
    draft.entries[place] = (node, pairs)


def break_line(draft):
    draft.extra_lines.append(draft.rng.choice((
        "bogus", "node", "node x", "node -1", "symbol", "entry 0 1", "entry 0 1:", "entry 0 1:2:3", "round",
        "round simple", "find basic 0", "version 4 8", "node 18446744073709551616", "node 0 0", "pattern 0")))


BREAKS = (break_name, break_child, break_symbol, break_owner, break_mark, break_pattern, break_part, break_binding,
          break_entries, break_entry, break_pair, break_line)

FAMILIES = (woven, dense, twins, alike_closed, by_aside, deep, limits, broken)
WEIGHTS = (48, 25, 10, 5, 4, 3, 2, 3)
