"""The host of a search: live nodes, classes, and the equalities made so far."""

from .rules import Refusal, closed, owner

ROOM = 4096


class Host:
    def __init__(self, request):
        self.request = request
        count = len(request.owners)
        self.loose = _classes(request, 0, count)
        self.strict = _classes(request, 1, count)
        self.listed = []
        self._number = {}  # ends -> number in the list

    def live(self, term):
        """The live node of a term, or None."""
        node = self.request.live.get(term)
        if node is None or not closed(self.request, term) or owner(self.request, node) != term:
            return None
        return node

    def same(self, one, other):
        return self.loose[one] == self.loose[other]

    def make(self, start, end, initial, congruence):
        """Makes an equality, or raises a Refusal. The answer is its number."""
        count = len(self.request.owners)
        if start >= count or end >= count or start == end:
            raise Refusal(12, "host")
        if not self.same(start, end) and not initial:
            raise Refusal(13, "host")
        if self.same(start, end) and self.strict[start] != self.strict[end] and not congruence:
            raise Refusal(14, "host")
        if (start, end) in self._number:
            return self._number[start, end]
        if len(self.listed) >= ROOM:
            raise Refusal(15, "host")
        self._number[start, end] = len(self.listed)
        self.listed.append((start, end))
        return self._number[start, end]

    def same_lists(self):
        """For each node that is the same as another: the node, and the others in order."""
        members = {}
        for node, name in enumerate(self.loose):
            members.setdefault(name, []).append(node)
        for node, name in enumerate(self.loose):
            if len(members[name]) > 1:
                yield node, [other for other in members[name] if other != node]


def _classes(request, column, count):
    """A name for the class of each node, from one column of the class or link lines."""
    names = []
    for node in range(count):
        given = request.classes.get(node)
        number = given[column] if given else None
        if request.class_form == "link":
            names.append(names[number] if number is not None and number < node else ("root", node))
        else:
            names.append(("class", number) if number is not None and number < count else ("alone", node))
    return names
