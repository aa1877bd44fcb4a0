"""Candidates of a resolve, requests C-14 and C-15: exporters with packages, which are a number and a version. What a line of a resolve
shows, and cases of it. The oracle stands on the path of whoever imports this."""

import itertools

import gen2
import oracle2

# What is noted of a resolve, by a name and the number of the answer. All of it must be reached.
# A candidate whose package is not seen.
UNSEEN = "resolve, package not seen"
# One that is not offered, though its package is seen.
ABSENT = "resolve, exporter absent"
WITHOUT = "resolve, exporter without it"
BESIDE = "resolve, another of its region"
EDITION = "resolve, exporter has another version"
UNCONNECTED = "resolve, region unconnected"
STOPPED = "resolve, route stopped"
PARTED = "resolve, for another package"
OUT_OF_RANGE = "resolve, for another version"
# One that is offered.
OWN = "resolve, of the own region"
BY_ROUTE = "resolve, by a route"
PAST = "resolve, past a holder"
HIDDEN_BUNDLE = "resolve, exporter not found"
AGAIN = "resolve, offered again"
# The lists.
PARTS = ("exporters", "packages", "versions")
MORE, NONE_OF, FEWEST = "resolve, more %s", "resolve, no %s", "resolve, fewest %s"
NOTHING = "resolve, no candidates"
UNLIKE = "resolve, outputs unlike"
SHORT_OF, ALL_SHORT = "resolve, output of %s short", "resolve, all outputs short"

SHORT = [SHORT_OF % part for part in PARTS] + [ALL_SHORT]
SHOWN = ([(name, 0) for name in (UNSEEN, ABSENT, WITHOUT, BESIDE, EDITION, UNCONNECTED, STOPPED, PARTED, OUT_OF_RANGE, OWN, BY_ROUTE, PAST,
                                 HIDDEN_BUNDLE, AGAIN, NOTHING, UNLIKE)]
         + [(name % part, 0) for name in (MORE, NONE_OF, FEWEST) for part in PARTS]
         + [(name, number) for name in SHORT for number in (12, 14)])


def line(asker, rooms, *lists):
    """A resolve with so many places in each output list, and with a list for each part of the candidates."""
    return "resolve %d %s %s" % (asker, oracle2.show(rooms), " ".join(map(oracle2.show, lists)))


def line_of(asker, rooms, candidates):
    return line(asker, rooms, *oracle2.turned(candidates, len(PARTS)))


def exported(graph):
    """Every exporter with each of its packages."""
    return sorted((location, *item) for location, bundle in graph.B.items() for item in bundle.packages)


def closure(graph, region):
    """A region, and all that connections lead to from it, whatever they pass."""
    found, more = set(), {region}
    while more:
        found |= more
        more = {target for source, target in graph.F if source in found} - found
    return found


class Seen:
    """What a region reaches and sees in a graph, each asked for once."""

    def __init__(self, graph, region):
        self.graph, self.region, self.known, self.shown = graph, region, {}, {}
        self.led_to = closure(graph, region)

    def of(self, item):
        """The regions that hold a package, and those that are reached for it: at all, and without leaving a holder."""
        if item not in self.known:
            graph = self.graph
            holders = {bundle.region for bundle in graph.B.values() if item in bundle.packages}
            before = oracle2.Graph(graph.R, graph.B, {pair: passed for pair, passed in graph.F.items() if pair[0] not in holders})
            self.known[item] = holders, *(oracle2.reached_from(each, self.region, oracle2.PACKAGE, item) for each in (graph, before))
        return self.known[item]

    def of_candidate(self, candidate):
        """What a candidate shows."""
        if candidate not in self.shown:
            self.shown[candidate] = list(self.judged(candidate[0], candidate[1:]))
        return self.shown[candidate]

    def judged(self, exporter, item):
        holders, reached, before = self.of(item)
        bundle = self.graph.B.get(exporter)
        if not holders & reached:
            yield UNSEEN
        elif bundle is None:
            yield ABSENT
        elif item not in bundle.packages:
            yield BESIDE if bundle.region in holders & reached else WITHOUT
            if item[0] in dict(bundle.packages):
                yield EDITION
        elif bundle.region not in reached:
            yield STOPPED if bundle.region in self.led_to else UNCONNECTED
            for other in bundle.packages:
                if bundle.region in self.of(other)[1]:
                    yield OUT_OF_RANGE if other[0] == item[0] else PARTED
        else:
            yield OWN if bundle.region == self.region else BY_ROUTE
            if bundle.region not in before:
                yield PAST
            if bundle.region not in oracle2.reached_from(self.graph, self.region, oracle2.BUNDLE, exporter):
                yield HIDDEN_BUNDLE


def of_lists(lists, rooms):
    """What the lists of an accepted resolve show."""
    if len(set(rooms)) > 1:
        yield UNLIKE
    if not any(lists):
        yield NOTHING
    for part, each in zip(PARTS, lists):
        others = [len(other) for other in lists if other is not each]
        if not each and all(others):
            yield NONE_OF % part
        if len(each) < min(others):
            yield FEWEST % part
        if len(each) > max(others) > 0:
            yield MORE % part


def of_rooms(rooms, count):
    """Which output lists have too few places: all, or one alone."""
    short = [part for part, room in zip(PARTS, rooms) if room < count]
    if len(short) == len(PARTS):
        yield ALL_SHORT
    elif len(short) == 1:
        yield SHORT_OF % short[0]


class Notes:
    """What resolves show, one after the other; most ask one graph."""

    def __init__(self):
        self.graph, self.seen = None, {}

    def seen_from(self, graph, region):
        if graph is not self.graph:
            self.graph, self.seen = graph, {}
        if region not in self.seen:
            self.seen[region] = Seen(graph, region)
        return self.seen[region]

    def of(self, graph, words, answer):
        """The pairs of a name and a number that a line and its answer show."""
        number = int(answer[0])
        rooms, *lists = map(oracle2.parse_list, words[2:])
        candidates = list(zip(*lists))
        if number:
            return [(name, number) for name in of_rooms(rooms, len(candidates))]
        seen = self.seen_from(graph, graph.B[int(words[1])].region)
        names = {name for each in set(candidates) for name in seen.of_candidate(each)} | {*of_lists(lists, rooms)}
        kept = list(zip(*(oracle2.parse_list(places)[:int(answer[1])] for places in answer[2:])))
        return [(name, 0) for name in sorted(names | ({AGAIN} if len(set(kept)) < len(kept) else set()))]


# ---- cases

PACKAGES = 3            # numbers that bundles export, from 0 on
VERSIONS = (0, 7)       # versions of each of them
ITEMS = list(itertools.product(range(PACKAGES), VERSIONS))
RANGES = ((0, oracle2.TOP_VERSION), (0, 0), (0, 6), (7, 7), (1, oracle2.TOP_VERSION))
MOST_ASKERS = 3
ALONE = 6               # candidates that are asked for alone


def crowded_graph(rnd, level):
    """Few packages that many bundles export, several of them in a region; connections that pass some of the packages, in both versions
    or in one. A region may have none that leads to it."""
    regions = gen2.region_numbers(rnd, level, rnd.randint(3, 8))
    locations = rnd.sample(range(1, 40), rnd.randint(3, 14))
    bundles = {location: oracle2.Bundle(rnd.choice(regions), gen2.subset(rnd, ITEMS, 5), ()) for location in locations}

    def passed():
        return tuple((number, *rnd.choice(RANGES)) for number in gen2.subset(rnd, range(PACKAGES), PACKAGES))

    pairs = [(source, target) for source in regions for target in regions if source != target]
    filters = {pair: oracle2.Filter((), rnd.choice((oracle2.ALL, passed(), passed())), ())
               for pair in rnd.sample(pairs, rnd.randint(1, min(len(pairs), 2 * len(regions))))}
    return oracle2.Graph(regions, bundles, filters)


def every_candidate(rnd, graph):
    """Every bundle with every package, a location that has no bundle, and a number and a version that nobody exports among them, in any
    order; some come twice."""
    every = [(exporter, *item) for exporter in [*graph.B, 77] for item in ITEMS + [(PACKAGES, 0), (0, 8)]]
    every += rnd.choices(exported(graph) or every, k=3)
    return rnd.sample(every, len(every))


def resolve_lines(rnd, asker, candidates):
    """A resolve with room in all output lists, in all but one and in none; with lists of different lengths; for each of a few
    candidates alone; and with nothing in a list."""
    count = len(candidates)
    for more in ((0, 0, 0), (2, 0, 0), (0, 3, 1), (-1, 0, 0), (0, -1, 0), (0, 0, -1), (-1, -count, -1)):
        yield line_of(asker, [count + each for each in more], candidates)
    lists = oracle2.turned(candidates, len(PARTS))
    for part in range(len(PARTS)):
        cut = rnd.randint(1, count - 1)
        yield line(asker, (cut, cut, cut + rnd.choice((0, 1))), *(each[:cut] if i == part else each for i, each in enumerate(lists)))
        yield line(asker, (cut, cut, cut), *(each if i == part else each[:cut] for i, each in enumerate(lists)))
        yield line(asker, rnd.choice(((0, 0, 0), (2, 1, 1))), *([] if i == part else each for i, each in enumerate(lists)))
    for one in rnd.sample(candidates, min(ALONE, count)):
        yield line_of(asker, (1, rnd.choice((1, 1, 2)), 1), [one])
    yield line(asker, (0, 0, 0), [], [], [])


def case_candidates(s, rnd, i):
    """Many exporters of few packages: all of them and some alone, for several bundles and for one that is not installed; then the same
    after a connection or a bundle has left."""
    s.put("start " + oracle2.image(s.level, crowded_graph(rnd, s.level)).hex())
    for _ in range(2):
        for asker in rnd.sample(sorted(s.g.B), min(MOST_ASKERS, len(s.g.B))) + [78]:
            for each in resolve_lines(rnd, asker, every_candidate(rnd, s.g)):
                s.put(each)
        leaving = [("disconnect", *pair) for pair in s.g.F] + [("uninstall", location) for location in s.g.B]
        s.call(*rnd.choice(sorted(leaving)))
