"""Counts what the requests of a comparison hit."""

from collections import Counter

from .finder import USED, WAITING
from .rules import closed, parts, places



class Coverage:
    def __init__(self):
        self.counts = Counter()

    def refused(self, line):
        words = line.split()
        self.counts["requests", "refused " + words[1] if words[0] == "refused" else "a line cannot be read"] += 1

    def admitted(self, request, answer, outcome):
        self.request(request)
        for line in outcome:
            self.line(line)
        for name, count in answer.finder.notes.items():
            self.counts["search", name] += count
            self.counts["requests with", name] += 1
        states = answer.finder.entries
        self.counts["entries at the end", "used"] += states.count(USED)
        self.counts["entries at the end", "waiting"] += states.count(WAITING)
        self.counts["entries at the end", "set aside"] += len(states) - states.count(USED) - states.count(WAITING)

    def request(self, request):
        self.counts["requests", "admitted"] += 1
        self.counts["host", {"class": "by class numbers", "link": "by links", None: "none"}[request.class_form]] += 1
        self.counts["bindings", "as " + (request.bound_form or "none")] += 1
        self.counts["version", version_group(request.version)] += 1
        self.counts["parts", "%2d" % len(parts(request))] += 1
        self.counts["entries", group(len(request.entries))] += 1
        self.counts["largest part, places", group(max(places(request, part) for part in parts(request)))] += 1
        self.counts["most pairs of an entry", group(max(len(pairs) for _, pairs in request.entries))] += 1
        if any(closed(request, part) for part in parts(request)):
            self.counts["requests with", "a closed part"] += 1
        if b"if" in request.symbols:
            self.counts["requests with", "the symbol if"] += 1
        if not all(action[0] == "offers" for action in request.actions):
            self.counts["requests with", "rounds or finds of their own"] += 1

    def line(self, line):
        words = line.split()
        if words[0] in ("round", "find"):
            self.counts[words[0] + " " + words[1].rstrip(":"), outcome_of(line)] += 1
        elif words[0] == "part":
            self.counts["parts at the end", words[2]] += 1
        elif words[0] == "order":
            self.counts["order", words[1]] += 1

    def report(self):
        lines, heading = [], None
        for (head, name), count in sorted(self.counts.items()):
            if head != heading:
                heading = head
                lines.append(head)
            lines.append("  %9d  %s" % (count, name))
        return "\n".join(lines)


def outcome_of(line):
    """The kind of outcome that a round or find line tells."""
    rest = line.partition(": ")[2].split()
    if rest[0] == "refused":
        return " ".join(rest[:2])
    if rest[0] == "parts":
        return "booked" if rest[1] != "0" else "booked nothing"
    if rest[0] == "pairs":
        return "found, with pairs" if len(rest) > 1 else "found, without pairs"
    return "missed"


def version_group(version):
    if version is None:
        return "none"
    if version in ((4, 8, 17), (4, 8, 18), (4, 12, 2), (4, 12, 3)):
        return "%d.%d.%d" % version
    if version < (4, 8, 17):
        return "below 4.8.17"
    return "above 4.12.3" if version > (4, 12, 3) else "between 4.8.18 and 4.12.2"


def group(count):
    for top in (0, 1, 2, 4, 8, 16, 32, 48, 62, 63, 64):
        if count <= top:
            return "up to %2d" % top
    return "over 64"
