#!/usr/bin/env python3
"""compare.py GRAPHS CLASSPATH [DRIVER]: what bundles see in random graphs, by the second program, by Equinox and by the engine.

Makes GRAPHS graphs by seed, asks each the finds and a resolve of every installed bundle and events with many listeners, and compares
the answers line by line. Prints the counts. Exit status 1 on a difference.
"""

import collections
import os
import random
import subprocess
import sys

HERE = os.path.dirname(os.path.abspath(__file__))
sys.path.insert(0, os.path.join(HERE, ".."))
import cases  # noqa: E402
import candidates  # noqa: E402
import gen2  # noqa: E402
import oracle2  # noqa: E402
from cases import EVENTS, FINDS, LEVEL  # noqa: E402

CHANGES = tuple(oracle2.CHANGES)
QUERIES = (*FINDS, "resolve", *EVENTS)
UNHELD = [77, 91]
MIXED = 12
MOST_SHOWN = 10
BLOCK = 500


def items_of(graph, kind):
    """Every number of a kind that is held, and two that are not."""
    return sorted(cases.numbers_held(graph, kind) | set(UNHELD))


def packages_of(graph):
    """Every package that is held, in its version and in the next, and two that are not."""
    held = cases.items_held(graph, oracle2.PACKAGE)
    return sorted(held | {(number, min(version + 1, oracle2.TOP_VERSION)) for number, version in held} | {(number, 0) for number in UNHELD})


def some(rnd, pool, most):
    """A list in any order, with repetitions now and then."""
    numbers = rnd.sample(pool, rnd.randint(0, min(most, len(pool))))
    return numbers + [rnd.choice(numbers) for _ in range(rnd.choice([0, 0, 2]))] if numbers else numbers


def resolve_line(rnd, graph, location):
    """A resolve with exporters and their packages, and with others; at times one of the three lists is longer, or an output list."""
    mixed = [(rnd.choice(items_of(graph, oracle2.BUNDLE)), *rnd.choice(packages_of(graph))) for _ in range(MIXED)]
    lists = oracle2.turned(some(rnd, candidates.exported(graph) + mixed, 36), len(candidates.PARTS))
    rooms = [len(lists[0]) + rnd.choice([0, 0, 1]) for _ in lists]
    rnd.choice(lists).extend(rnd.choice([[], [], [0, 1]]))
    return candidates.line(location, rooms, *lists)


def queries(rnd, script):
    """The finds and a resolve for every bundle, and events with every bundle as a listener."""
    graph = script.g
    for location in sorted(graph.B):
        for call, kind in FINDS.items():
            numbers = some(rnd, items_of(graph, kind), 24)
            script.put("%s %d %d %s" % (call, location, len(numbers) + rnd.choice([0, 0, 1]), oracle2.show(numbers)))
        script.put(resolve_line(rnd, graph, location))
    listeners = sorted(graph.B) * rnd.choice([1, 2])
    rnd.shuffle(listeners)
    for call, kind in EVENTS.items():
        pool = items_of(graph, kind)
        for item in rnd.sample(pool, min(6, len(pool))):
            script.put("%s %d %d %s" % (call, len(listeners), item, oracle2.show(listeners)))


def some_graph(rnd, number):
    """A graph of any sort, or one in which many bundles export few packages."""
    if number % 4 == 2:
        return candidates.crowded_graph(rnd, LEVEL)
    return gen2.any_graph(rnd, LEVEL, large=number % 4 == 3)


def lines_of(number):
    """The lines of one graph, each with the second program's answer. Equinox has no routes, so none are asked."""
    rnd = random.Random("equinox %d" % number)
    script = cases.Script(rnd, gen2.Coverage(LEVEL))
    script.put("start empty")
    if number % 4 == 0:
        gen2.CALL_SCENARIOS[rnd.choice(["mix", "question-10", "cycle", "phantom"])](script, rnd)
    else:
        for call in oracle2.graph_calls(some_graph(rnd, number)):
            script.call(*call)
        for _ in range(rnd.choice([0, 6])):
            script.change((1, 1, 2, 2, 3, 2))
    queries(rnd, script)
    return [pair for pair in zip(script.lines, script.answers) if call_of(pair[0]) in ("start",) + CHANGES + QUERIES]


def call_of(line):
    return line.split(" ")[0]


def is_query(line):
    return call_of(line) in QUERIES


def for_equinox(lines, answers):
    """Changing calls get document 01's number in front."""
    return [answer + " " + line if call_of(line) in CHANGES else line for line, answer in zip(lines, answers)]


def run(command, lines):
    done = subprocess.run(command, input="\n".join(lines) + "\n", stdout=subprocess.PIPE, stderr=subprocess.PIPE,
                          universal_newlines=True, check=False)
    if done.returncode:
        sys.exit("%s: exit status %d\n%s" % (command[0], done.returncode, done.stderr[-2000:]))
    return done.stdout.splitlines(), done.stderr.splitlines()


def differences(name, lines, expected, got):
    """How many answers differ; the first ones are shown."""
    if len(expected) != len(got):
        print("%s: %d answers for %d lines" % (name, len(got), len(expected)))
        return 1
    wrong = [i for i in range(len(expected)) if expected[i] != got[i]]
    for i in wrong[:MOST_SHOWN]:
        print("%s differs: %s\n  second program %s\n  %s %s" % (name, lines[i], expected[i], name, got[i]))
    return len(wrong)


class Totals:
    """What was compared so far."""

    def __init__(self):
        self.wrong = self.candidates = self.offered = 0
        self.asked = collections.Counter()
        # (call, document 01's number) -> how often Equinox accepts, and how often it refuses
        self.tried = collections.defaultdict(lambda: [0, 0])

    def note(self, notes):
        """Takes in what the Java program said beside the answers."""
        for words in (note.split(" ") for note in notes if not note.startswith("refused")):
            count = self.tried[words[0], int(words[1])]
            count[0] += int(words[2])
            count[1] += int(words[3])

    def count(self, lines, answers):
        """Counts the queries, the candidates of the resolves, and those that are offered."""
        self.asked.update(map(call_of, lines))
        for words, answer in ((line.split(" "), answer) for line, answer in zip(lines, answers) if call_of(line) == "resolve"):
            self.candidates += min(len(oracle2.parse_list(part)) for part in words[3:])
            self.offered += int(answer.split(" ")[1])

    def refused(self):
        """Accepted changes that Equinox refuses."""
        return sum(count[1] for (_, number), count in self.tried.items() if number == 0)

    def show(self, graphs, driver):
        print("changing calls, by document 01's number: accepted and refused by Equinox")
        for (call, number), count in sorted(self.tried.items()):
            print("  %-10s %2d: %d %d" % (call, number, *count))
        counts = ", ".join("%d %s" % (self.asked[call], call) for call in QUERIES)
        print("resolve: %d candidates, %d offered" % (self.candidates, self.offered))
        print("%d graphs: %s; %d accepted changes that Equinox refuses, %d answers that differ%s"
              % (graphs, counts, self.refused(), self.wrong, "" if driver else " (without the engine)"))


def block(numbers, classpath, driver, totals):
    """Compares the graphs of some numbers in one go."""
    lines, answers = zip(*(pair for number in numbers for pair in lines_of(number)))
    asked = [line for line in lines if is_query(line)]
    expected = [answer for line, answer in zip(lines, answers) if is_query(line)]
    got, notes = run(["java", "-cp", classpath, "Answer"], for_equinox(lines, answers))
    totals.wrong += differences("Equinox", asked, expected, got)
    if driver:
        totals.wrong += differences("engine", lines, answers, run([driver], lines)[0])
    totals.count(asked, expected)
    totals.note(notes)
    for note in [n for n in notes if n.startswith("refused")][:MOST_SHOWN]:
        print(note)


def main(graphs, classpath, driver=None):
    totals = Totals()
    for first in range(0, graphs, BLOCK):
        block(range(first, min(first + BLOCK, graphs)), classpath, driver, totals)
    totals.show(graphs, driver)
    sys.exit(1 if totals.wrong or totals.refused() else 0)


if __name__ == "__main__":
    if len(sys.argv) not in (3, 4):
        sys.exit(__doc__)
    main(int(sys.argv[1]), *sys.argv[2:])
