"""A request in the making, and its text."""

from .text import APP, QUANT, VAR


class Draft:
    """Tables that grow as a generator asks for terms and nodes."""

    def __init__(self, rng):
        self.rng = rng
        self.symbols = []
        self.terms = []        # (kind, number, children)
        self.closed = []       # of each term
        self.by_shape = {}     # shape -> term, to share equal terms
        self.sharing = rng.choice((1.0, 1.0, 0.8))
        self.owners = []
        self.nodes_of = {}     # term -> nodes
        self.new_nodes = rng.choice((0.0, 0.1, 0.4))
        self.pattern = None
        self.bound_form = rng.choice(("terms", "nodes"))
        self.bound = []
        self.entries = []      # (node, pairs)
        self.joins = []        # pairs that the host may join
        self.live = []
        self.class_form = None
        self.classes = []
        self.version = None
        self.actions = []
        self.extra_lines = []

    # Terms and nodes

    def symbol(self, name):
        if name not in self.symbols:
            self.symbols.append(name)
        return self.symbols.index(name)

    def term(self, kind, number, children=()):
        shape = (kind, number, tuple(children))
        if shape in self.by_shape and self.rng.random() < self.sharing:
            return self.by_shape[shape]
        self.terms.append(shape)
        self.closed.append(kind == APP and all(self.closed[child] for child in children))
        self.by_shape.setdefault(shape, len(self.terms) - 1)
        return len(self.terms) - 1

    def app(self, name, *children):
        return self.term(APP, self.symbol(name), children)

    def var(self, number):
        return self.term(VAR, number)

    def quant(self, number, *children):
        return self.term(QUANT, number, children)

    def node(self, term):
        """A node of a term: one that is there, or a new one."""
        there = self.nodes_of.get(term)
        if there and self.rng.random() >= self.new_nodes:
            return self.rng.choice(there)
        return self.add_node(term)

    def add_node(self, term):
        self.owners.append(term)
        self.nodes_of.setdefault(term, []).append(len(self.owners) - 1)
        return len(self.owners) - 1

    def name(self, term):
        return self.symbols[self.terms[term][1]]

    def bound_term(self, variable):
        item = self.bound[variable]
        return self.owners[item] if self.bound_form == "nodes" else item

    def bind(self, term):
        self.bound.append(self.node(term) if self.bound_form == "nodes" else term)

    def closed_terms(self):
        return [term for term, closed in enumerate(self.closed) if closed]

    # Text

    def text(self):
        lines = ["request"]
        lines += ["symbol " + name for name in self.symbols]
        lines += [words(kind, number, *children) for kind, number, children in self.terms]
        lines += [words("node", owner) for owner in self.owners]
        if self.pattern is not None:
            lines.append(words("pattern", self.pattern))
        if self.bound or self.rng.random() < 0.5:
            lines.append(words(self.bound_form, *self.bound))
        lines += [words("entry", node, *("%d:%d" % pair for pair in pairs)) for node, pairs in self.entries]
        lines += [words("live", term, node) for term, node in self.live]
        lines += [words(self.class_form, *row) for row in self.classes]
        if self.version:
            lines.append(words("version", *self.version))
        lines += [words(*action) for action in self.actions]
        lines += self.extra_lines
        return "\n".join(lines + ["end", ""])


def words(*items):
    return " ".join(map(str, items))
