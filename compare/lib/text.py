"""Reads requests from their text, as docs/REQUEST-TEXT.md describes it."""

import re

LARGEST = 2**64 - 1
NO, YES, UNKNOWN = "no", "yes", "unknown"
VAR, APP, QUANT = "var", "app", "quant"
KINDS = ("basic", "complex", "custom", "force")

_SPACE = re.compile(rb"[ \t\f\r]+")
_DIGITS = re.compile(rb"[0-9]+\Z")


class Unreadable(Exception):
    """A line that cannot be read. Its one argument says what was expected."""


class Request:
    """The tables of one request, as its lines give them."""

    def __init__(self):
        self.symbols = []       # names, as bytes
        self.kinds = []         # of each term: (VAR, number), (APP, symbol) or (QUANT, number)
        self.children = []      # of each term: the numbers of its children
        self.records = []       # of each term: NO, YES or UNKNOWN
        self.owners = []        # of each node
        self.pattern = None
        self.bound_form = None  # "terms" or "nodes"
        self.bound = []
        self.entries = []       # (node, list of pairs)
        self.live = {}          # term -> node
        self.class_form = None  # "class" or "link"
        self.classes = {}       # node -> (loose, strict)
        self.version = None
        self.actions = []       # ("find", kind, part, entry), ("round", kind), ("offers", kind, entry, term, pattern term)


class _Words:
    """The words of a line, taken one after the other."""

    def __init__(self, words):
        self.words = words
        self.at = 0

    def left(self):
        return self.at < len(self.words)

    def next(self):
        word = self.words[self.at] if self.left() else b""
        self.at += 1
        return word

    def number(self):
        return _number(self.next())

    def numbers(self):
        taken = [_number(word) for word in self.words[self.at:]]
        self.at = len(self.words)
        return taken

    def one_of(self, choices, expected):
        word = self.next().decode("latin-1")
        if word not in choices:
            raise Unreadable(expected)
        return word

    def kind(self):
        return self.one_of(KINDS, "'basic', 'complex', 'custom' or 'force'")

    def pairs(self):
        taken = [_pair(word) for word in self.words[self.at:]]
        self.at = len(self.words)
        return taken

    def end(self):
        if self.left():
            raise Unreadable("the end of the line")


def _number(word):
    if not _DIGITS.match(word):
        raise Unreadable("a number up to 18446744073709551615")
    number = int(word.lstrip(b"0")[:21] or b"0")
    if number > LARGEST:
        raise Unreadable("a number up to 18446744073709551615")
    return number


def _pair(word):
    if b":" not in word:
        raise Unreadable("a pair FROM:TO")
    start, _, end = word.partition(b":")
    return _number(start), _number(end)


def _add_symbol(request, words):
    if not words.left():
        raise Unreadable("a name")
    request.symbols.append(words.next())


def _add_term(request, kind, children):
    request.kinds.append(kind)
    request.children.append(children)
    request.records.append(derived_record(kind, children, request.records))


def derived_record(kind, children, records):
    """Whether a term holds a free variable, read off the records of its children."""
    if kind[0] == VAR:
        return YES
    if kind[0] == QUANT:
        return UNKNOWN
    of_children = {records[child] for child in children if child < len(records)}
    if UNKNOWN in of_children:
        return UNKNOWN
    return YES if YES in of_children else NO


def _add_var(request, words):
    _add_term(request, (VAR, words.number()), [])


def _add_app(request, words):
    symbol = words.number()
    _add_term(request, (APP, symbol), words.numbers())


def _add_quant(request, words):
    number = words.number()
    _add_term(request, (QUANT, number), words.numbers())


def _mark(request, words):
    term = words.number()
    if term >= len(request.records):
        raise Unreadable("the number of a term given above")
    request.records[term] = words.one_of((NO, YES, UNKNOWN), "'no', 'yes' or 'unknown'")


def _add_node(request, words):
    request.owners.append(words.number())


def _set_pattern(request, words):
    if request.pattern is not None:
        raise Unreadable("no second 'pattern' line")
    request.pattern = words.number()


def _set_bound(form):
    def read(request, words):
        if request.bound_form is not None:
            raise Unreadable("no second 'terms' or 'nodes' line")
        request.bound_form = form
        request.bound = words.numbers()
    return read


def _add_entry(request, words):
    node = words.number()
    request.entries.append((node, words.pairs()))


def _set_live(request, words):
    term = words.number()
    request.live[term] = words.number()


def _set_classes(form):
    def read(request, words):
        if request.class_form not in (None, form):
            raise Unreadable("'%s', as above" % request.class_form)
        request.class_form = form
        node = words.number()
        loose = words.number()
        request.classes[node] = (loose, words.number())
    return read


def _set_version(request, words):
    if request.version is not None:
        raise Unreadable("no second 'version' line")
    major = words.number()
    minor = words.number()
    request.version = (major, minor, words.number())


def _add_action(word, numbers):
    def read(request, words):
        kind = words.kind()
        request.actions.append((word, kind) + tuple(words.number() for _ in range(numbers)))
    return read


_ITEMS = {
    b"symbol": _add_symbol,
    b"var": _add_var,
    b"app": _add_app,
    b"quant": _add_quant,
    b"mark": _mark,
    b"node": _add_node,
    b"pattern": _set_pattern,
    b"terms": _set_bound("terms"),
    b"nodes": _set_bound("nodes"),
    b"entry": _add_entry,
    b"live": _set_live,
    b"class": _set_classes("class"),
    b"link": _set_classes("link"),
    b"version": _set_version,
    b"find": _add_action("find", 2),
    b"round": _add_action("round", 0),
    b"offers": _add_action("offers", 3),
}


def words_of(line):
    """The words of a line without its comment."""
    return [word for word in _SPACE.split(line.partition(b"#")[0]) if word]


def _read_item(request, first, words):
    if first not in _ITEMS:
        raise Unreadable("a known word")
    _ITEMS[first](request, words)
    words.end()


class _Reader:
    """Goes through the lines and hands out what they give, in order."""

    def __init__(self):
        self.request = None  # the open request, or an Unreadable
        self.inside = False

    def finish(self):
        """What the open request came to, if one is open."""
        if self.inside:
            self.inside = False
            yield self.request

    def line(self, number, words):
        first, rest = words[0], _Words(words[1:])
        if first == b"request":
            yield from self.finish()
            self.request, self.inside = Request(), True
            self.take(number, lambda: rest.end())
        elif not self.inside:
            yield "line %d: expected 'request'" % number
        elif first == b"end":
            self.take(number, lambda: rest.end())
            yield from self.finish()
        else:
            self.take(number, lambda: _read_item(self.request, first, rest))

    def take(self, number, step):
        """Takes a line into the open request, unless an earlier line of it could not be read."""
        if isinstance(self.request, str):
            return
        try:
            step()
        except Unreadable as fault:
            self.request = "line %d: expected %s" % (number, fault)


def read(data):
    """What a text gives, in order.

    Yields (True, request), (True, message) for a request with a line that cannot be read, and
    (False, message) for a line outside any request.
    """
    reader = _Reader()
    for number, line in enumerate(data.split(b"\n"), 1):
        words = words_of(line)
        if not words:
            continue
        inside_before = reader.inside
        for item in reader.line(number, words):
            stray = isinstance(item, str) and not inside_before
            yield (not stray, item)
    for item in reader.finish():
        yield (True, item)
