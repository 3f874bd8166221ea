"""Runs requests through the port and through smt-scope's own code, and compares what they say."""

import os
import re
import subprocess
import tempfile
from collections import Counter
from itertools import combinations

from .answer import Answer, lines_of, refusal_of
from .coverage import Coverage
from .finder import SWITCHES
from .generator import generate
from .text import read

HERE = os.path.dirname(os.path.dirname(os.path.abspath(__file__)))
PORT = os.path.join(os.path.dirname(HERE), "target", "bin", "explain")
TARGET = os.path.join(HERE, "target")
ORACLE = os.path.join(TARGET, "release", "oracle")

_COMPARED = re.compile(r"(offers |round |find |order |aside|listed |part \d+: (open|Exact|SwappedEqs|MissingEqs|AddedEqs)\b)")
_MISSED = re.compile(r"missed .*")


def compared(lines):
    """The lines that both sides print, a miss without its reason."""
    return [_MISSED.sub("missed", line) for line in lines if _COMPARED.match(line)]


def build_oracle():
    if not os.path.isdir(os.environ.get("SMT_SCOPE_SRC", "")):
        raise SystemExit("SMT_SCOPE_SRC has to name the directory src of smt-scope 0.1.7")
    words = ["cargo", "build", "--quiet", "--release", "--offline", "--target-dir", TARGET]
    subprocess.run(words, cwd=os.path.join(HERE, "oracle"), check=True)


def run_program(words, texts):
    """What a program prints for each of some requests."""
    with tempfile.NamedTemporaryFile("w", suffix=".txt", dir=TARGET) as file:
        file.write("".join(texts))
        file.flush()
        printed = subprocess.run(words + [file.name], stdout=subprocess.PIPE, check=True).stdout
    answers = []
    for line in printed.decode("latin-1").splitlines():
        if line.startswith("request #"):
            answers.append([])
        else:
            answers[-1].append(line)
    if len(answers) != len(texts):
        raise SystemExit("%s answered %d of %d requests" % (words[0], len(answers), len(texts)))
    return answers


def one_request(text):
    """The request of a text, or the message that a line cannot be read."""
    (_, request), = read(text.encode())
    return request


def agrees(oracle, lines):
    """Whether the oracle's lines are these. Where it panicked, those before that are meant."""
    if panicked(oracle):
        return oracle[:-1] == lines[:len(oracle) - 1]
    return oracle == lines


def panicked(oracle):
    return bool(oracle) and oracle[-1].startswith("oracle panicked")


def model_lines(request, switches=()):
    """The lines of the model that are compared, and how many equalities its host lists at the end."""
    answer = Answer(request, frozenset(switches))
    return compared(answer.outcome()) + [answer.listed_line()]


def explanation(request, oracle):
    """The smallest sets of differences with which the model says what the oracle says."""
    for size in range(1, len(SWITCHES) + 1):
        sets = [names for names in combinations(SWITCHES, size) if agrees(oracle, model_lines(request, names))]
        if sets:
            return " or ".join(" + ".join(names) for names in sets)
    return None


class Comparison:
    """The counts of a comparison."""

    def __init__(self, with_port):
        self.with_port = with_port
        self.total = 0
        self.counts = Counter()
        self.panics = Counter()
        self.named = Counter()
        self.examples = {}
        self.unexplained = []
        self.coverage = Coverage()

    def take(self, texts):
        """Compares some requests."""
        requests = [one_request(text) for text in texts]
        models = [None if self.bars(request) else Answer(request) for request in requests]
        if self.with_port:
            ports = run_program([PORT, "--terse"], texts)
        else:
            ports = [None] * len(texts)
        admitted = [i for i, model in enumerate(models) if model]
        oracles = dict(zip(admitted, run_program([ORACLE, "--listed"], [texts[i] for i in admitted])))
        for i, text in enumerate(texts):
            self.total += 1
            self.take_one(text, requests[i], models[i], ports[i], oracles.get(i))

    @staticmethod
    def bars(request):
        return isinstance(request, str) or refusal_of(request)

    def take_one(self, text, request, model, port, oracle):
        if model is None:
            lines, outcome = lines_of(request), None
            self.coverage.refused(lines[0])
        else:
            outcome = model.outcome()
            lines = model.description() + outcome
            self.coverage.admitted(request, model, outcome)
        if port is not None and strip_line_numbers(port) != strip_line_numbers(lines):
            self.report("the port and the model differ", text, port, lines)
        if model is None:
            self.counts["refused or unreadable, so only the port's side answers"] += 1
            return
        # The port does not print what its host lists; the model stands in for that.
        ours = compared(outcome if port is None else port) + [model.listed_line()]
        self.against_oracle(text, request, ours, oracle)

    def against_oracle(self, text, request, ours, oracle):
        if panicked(oracle):
            self.panics[oracle[-1]] += 1
        head = "up to the oracle's panic" if panicked(oracle) else "compared"
        self.counts[head] += 1
        if not agrees(oracle, model_lines(request, SWITCHES)):
            self.report("the model as the Rust has it and the oracle differ", text, oracle, [])
        if agrees(oracle, ours):
            self.counts[head + ", agree"] += 1
            return
        name = explanation(request, oracle)
        if name is None:
            self.counts[head + ", unexplained"] += 1
            self.report("unexplained", text, ours, oracle)
        else:
            self.counts[head + ", explained"] += 1
            self.named[name] += 1
            if len(text) < len(self.examples.get(name, text + " ")):
                self.examples[name] = text

    def report(self, what, text, one, other):
        self.unexplained.append(what)
        if len(self.unexplained) <= 5:
            print("%s:\n%s-- one side\n%s\n-- the other\n%s\n" % (what, text, "\n".join(one), "\n".join(other)))


def strip_line_numbers(lines):
    """A request is read in another place of another text by each side."""
    return [re.sub(r"^line \d+:", "line:", line) for line in lines]


def compare(count, seed, with_port, first=0, step=2000):
    comparison = Comparison(with_port)
    for begin in range(first, first + count, step):
        comparison.take([generate(seed, i) for i in range(begin, min(begin + step, first + count))])
    return comparison
