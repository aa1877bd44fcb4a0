"""What is compared: the level, and the second program's cases with more of what the interface for C can be handed, with more queries
of two graphs that agree on a set of regions, with more of the region numbers and of the versions of an archive, with more candidates
of a resolve (candidates.py), more packages by version (packages.py) and more conversions of archives (conversions.py)."""

import os
import random
import sys

sys.path.insert(0, os.path.join(os.path.dirname(os.path.abspath(__file__)), "oracle"))

import candidates  # noqa: E402
import conversions  # noqa: E402
import gen2  # noqa: E402
import oracle2  # noqa: E402
import packages  # noqa: E402
from candidates import closure  # noqa: E402

# The level of the product: 10 is document 01 alone, a higher one the number of the last request of document 02 that it has.
LEVEL = 17

# gen2 has region numbers and kinds of one byte. The interface takes 32 bits.
LARGE = (256, 65536, 2**31, 2**32 - 16, 2**32 - 1)

# Region numbers on both sides of the last of version 1, of half of the numbers and of the last of all; and numbers of no region.
EDGES = (0, 15, 16, 31, 32, 62, 63)
BEYOND = (64, 65, 79, 127, 128, 255) + LARGE

# Lengths of a buffer for a route: too few bytes, as many as level 10 asks for, and enough.
ROUTE_ROOMS = (0, 15, 16, 17, 49, 63, 64, 65, 300)

# The finds and the events, with the kind of what they ask for; and the kinds.
FINDS = {"bfind": oracle2.BUNDLE, "sfind": oracle2.SERVICE}
EVENTS = {"bevent": oracle2.BUNDLE, "sevent": oracle2.SERVICE}
KINDS = (oracle2.BUNDLE, oracle2.PACKAGE, oracle2.SERVICE)


def numbers_held(graph, kind):
    """The numbers of a kind that bundles of a graph hold."""
    return {item[0] if kind == oracle2.PACKAGE else item for item in oracle2.all_items(graph, kind)}


def items_held(graph, kind):
    """What bundles of a graph hold of a kind: numbers, those of packages with a version, the others with 0."""
    return {item if kind == oracle2.PACKAGE else (item, 0) for item in oracle2.all_items(graph, kind)}


class Script(gen2.Script):
    """A script under way, with large region numbers, and with images of the record after some of the refused changes."""

    def __init__(self, rnd, coverage):
        super().__init__(rnd, coverage)
        self.notes = candidates.Notes()

    def put(self, line):
        self.before = self.g
        answer = super().put(line)
        for pair in self.besides(line.split(" "), answer.split(" ")):
            if pair in BESIDES:
                self.coverage.note(*pair)
        return answer

    def besides(self, words, answer):
        """What a line and its answer show besides the call and the number, those of BESIDES among it."""
        if words[0] == "resolve":
            return self.notes.of(self.g, words, answer)
        if words[0] in conversions.OTHER:
            return conversions.shown(self.state.archive, words, answer)
        return [*besides(words, answer), *packages.shown(self.before, words, answer)]

    def change(self, *weights):
        answer = super().change(*weights)
        if answer != "0" and self.rnd.random() < 0.1:
            self.put("image")
        return answer

    def region(self, bad=0.05):
        region = super().region(bad)
        return region if region <= oracle2.max_region(self.level) else self.rnd.choice((region,) + LARGE)


# What coverage notes of each query: answers in cases of `isolation` that differ where a connection leads out of the set.
LED_OUT = {call: call + ", led out" for call in (*FINDS, *EVENTS, "resolve", "route")}

# What it notes besides, by a name and a number. All of it must be reached.
HIDDEN_ROUTE = "route, hidden"
ROUTE_OF, ROUTE_IN, ADDED = "route of %d", "route, %d bytes", "add %d"
MISLABELLED = "version %d for %d"
REGIONS_IN = "image, version %d, %d regions"
ABOVE_INSIDE, ABOVE_OUTSIDE = "isolation, above 15 inside", "isolation, above 15 outside"
AT_LIMITS = ([(ROUTE_IN % 63, 14), (ROUTE_IN % 64, 0), (ADDED % 64, 1), (MISLABELLED % (1, 2), 17), (MISLABELLED % (2, 1), 17)]
             + [(ADDED % region, 0) for region in EDGES])
BESIDES = (AT_LIMITS + [(HIDDEN_ROUTE, 0), (ABOVE_INSIDE, 0), (ABOVE_OUTSIDE, 0)]
           + [(ROUTE_OF % count, 0) for count in (15, 16, 32, 47, 48)]
           + [(REGIONS_IN % pair, 0) for pair in ((3, 0), (3, 1), (3, 16), (3, 17), (3, 63), (3, 64))]
           + [(name, 0) for name in LED_OUT.values()] + candidates.SHOWN + packages.SHOWN
           + conversions.SHOWN + conversions.SHOWN_LONG)


def of_route(room, number, count):
    yield ROUTE_IN % room, number
    if count == "hidden":
        yield HIDDEN_ROUTE, 0
    elif number == 0:
        yield ROUTE_OF % int(count), 0


def written(words, answer):
    """The file that a line has written, if any, by the answer."""
    if words[0] == "image" and len(answer) == 1:
        return [oracle2.unhex(answer[0])]
    if words[0] == "write" and answer[0] == "0":
        return [oracle2.unhex(answer[2])[:int(answer[1])]]
    return []


def of_read(data, number):
    """A file that is refused for its version alone: it is accepted with the other front byte."""
    if number == 17 and data[0] in (1, 2) and oracle2.read_call(LEVEL, bytes([3 - data[0]]) + data[1:])[1] == 0:
        yield MISLABELLED % (data[0], 3 - data[0]), number


def besides(words, answer):
    """What a line that is no resolve and no conversion, and its answer, show besides the call and the number. It takes no graph to
    tell."""
    if words[0] == "add":
        return [(ADDED % int(words[1]), int(answer[0]))]
    if words[0] == "route":
        return of_route(int(words[-1]), int(answer[0]), answer[1])
    if words[0] == "lent":
        return of_read(oracle2.unhex(words[1]), int(answer[0]))
    return [(REGIONS_IN % (file[0], file[5]), 0) for file in written(words, answer)]


def unreached(coverage):
    """The pairs of call and answer that the papers allow at the level and no case had, and those of BESIDES."""
    return coverage.missing() + [pair for pair in BESIDES if not coverage.answers[pair]]


def case_wide(s, rnd, i):
    """Queries at the edges: large numbers, long lists, much room, none."""
    image = oracle2.image(s.level, gen2.any_graph(rnd, s.level, large=True)).hex()
    s.put("start " + image)
    s.put("archive " + image)
    for asker in rnd.sample(sorted(s.g.B), min(3, len(s.g.B))):
        for kind in (rnd.choice(LARGE), rnd.randint(0, 4)):
            s.put("route %d %d %s %d" % (asker, kind, s.item_fields(kind), rnd.choice([300, oracle2.route_bytes(s.level), 0])))
            s.put("query %d %d %s" % (asker, kind, s.item_fields(kind)))
        for word in ("bfind", "sfind"):
            s.put(s.find_line(word, asker, rnd.choice([200, 500])))
        s.put(s.resolve_line(asker, rnd.choice([200, 500])))
        for word in ("bevent", "sevent"):
            s.put(s.event_line(word, rnd.choices(sorted(s.g.B), k=150)))


def put_archive(s, rnd, data):
    """Queries an archive, converts it, lists it, reads it over the record that stands, and writes the record."""
    s.put("archive " + oracle2.hexs(data))
    gen2.archive_queries(s, rnd, data, rnd.choice([1, 3, 5]))
    for line in conversions.lines_of(rnd, data):
        s.put(line)
    s.put("list")
    s.put("lent " + oracle2.hexs(data))
    length = len(oracle2.image(s.level, s.g))
    s.put("write %d" % rnd.choice([length, length, length + 5, length - 1, 20000]))


def put_archives(s, rnd, files):
    """The same for files one after the other, over a record that holds a graph."""
    s.put("start " + oracle2.image(s.level, gen2.any_graph(rnd, s.level)).hex())
    for data in files:
        put_archive(s, rnd, data)


def archives(level, seed, count):
    return [data for _, data, _ in gen2.archive_files(level, seed, count)]


def case_over(s, rnd, i):
    """Archives of all sorts, read over one another, and one that has a byte behind its end."""
    short = [data for data in archives(s.level, i, 1) if len(data) <= oracle2.LISTING_LIMIT]
    longer = oracle2.image(s.level, gen2.any_graph(rnd, s.level)) + bytes([rnd.randrange(256)])
    put_archives(s, rnd, rnd.sample(short, 40) + [longer])


def changed(rnd, data):
    """A sheet with a byte changed, or a bit of it."""
    data = bytearray(data)
    at = rnd.randrange(len(data))
    data[at] = rnd.choice((data[at] ^ 1 << rnd.randrange(8), rnd.randrange(256)))
    return bytes(data)


def put_sheet(s, data, asked):
    """Keeps a sheet, and asks it for kinds and numbers."""
    s.put("sheet " + oracle2.hexs(data))
    for kind, number in asked:
        s.put("lookup %d %d" % (kind, number))


def asked_of(rnd, data):
    """Kinds and numbers to ask a sheet for: those of its entries, or what stands where the first and any other entry may have them;
    and one that it hardly has."""
    try:
        asked = [(kind, number) for kind, number, _, _ in oracle2.judge_sheet(data)]
    except oracle2.Broken:
        asked = [(data[at], int.from_bytes(data[at + 1:at + 5], "big")) for at in (7, rnd.randrange(7, 60)) if at < len(data)]
    return rnd.sample(asked, min(6, len(asked))) + [(rnd.randint(0, 4), rnd.randint(0, 3))]


def sheets(seed, count):
    """Short sheets, whole and broken."""
    for i in range(count):
        rnd = random.Random("sheets %d %d" % (seed, i))
        for _, data, _ in gen2.sheet_faults(rnd, gen2.random_sheet_entries(rnd, rnd.choice([1, 2, 3]))):
            yield data


def case_names(s, rnd, i):
    """Sheets with lookups of all that they have and of what is close to it, kinds of more than a byte among them; damaged, they are
    asked for the same."""
    entries = gen2.random_sheet_entries(rnd, rnd.choice([0, 1, 2, 4, 8]))
    whole = oracle2.build_sheet(entries)
    held = [(kind, number) for kind, number, _ in entries] or [(oracle2.REGION, 0)]
    near = [(kind + rnd.choice((1, -1, 0, 0) + LARGE), number + rnd.choice((1, -1, 0, 0))) for kind, number in held]
    near = [(kind % 2**32, number % 2**32) for kind, number in near]
    put_sheet(s, whole, held + near)
    for _ in range(6):
        put_sheet(s, changed(rnd, whole), rnd.sample(held, min(3, len(held))) + near[:2])


# ---- two graphs that agree on a set of regions: request C-12

ISOLATION = "isolation"
MOST_REGIONS = 6        # regions that are built outside the set
MOST_BUILT = 12         # bundles that are built there, and connections
MOST_ASKED = 24         # numbers of a kind, and candidates of a resolve, that are asked for, of those that the graphs have
ABSENT = 2              # and of those that neither has
MIXED = 6               # and candidates of any bundle with any package


def within(graph, inside):
    """What a graph has of a set of regions: those of its regions, the bundles in them and the connections that leave them."""
    return oracle2.Graph(graph.R & inside, {location: bundle for location, bundle in graph.B.items() if bundle.region in inside},
                         {pair: passed for pair, passed in graph.F.items() if pair[0] in inside})


def built_around(rnd, level, inner, inside, other):
    """A graph that has `inner` in the set. Outside are regions, bundles and connections at random: bundles also at locations of
    another graph, connections also into the set. There is a place for one more connection."""
    free = sorted(set(range(oracle2.max_region(level) + 1)) - inside)
    outside = rnd.sample(free, rnd.randint(1, min(MOST_REGIONS, len(free))))
    locations, packages, services = (sorted(numbers_held(other, kind) | set(rnd.sample(range(60), 6))) for kind in KINDS)
    bundles, filters = dict(inner.B), dict(inner.F)
    new = [location for location in locations if location not in bundles]
    for location in rnd.sample(new, min(MOST_BUILT, len(new), oracle2.MAX_BUNDLES - len(bundles))):
        bundles[location] = oracle2.Bundle(rnd.choice(outside), gen2.exports(rnd, level, packages), gen2.subset(rnd, services, 8))
    pairs = [(source, target) for source in outside for target in sorted(inner.R) + outside if source != target]
    for pair in rnd.sample(pairs, min(MOST_BUILT, len(pairs), oracle2.MAX_CONNECTIONS - 1 - len(filters))):
        filters[pair] = oracle2.Filter(gen2.subset(rnd, locations, 16),
                                       rnd.choice((oracle2.ALL, gen2.entries(rnd, level, packages))),
                                       rnd.choice((oracle2.ALL, gen2.subset(rnd, services, 16))))
    return oracle2.Graph(inner.R | set(outside), bundles, filters)


def agreeing(rnd, level, large):
    """Two graphs and a set of regions on which they agree: the closure of a region, with a bundle in it, and at times with numbers
    of regions that neither graph has. Both graphs have regions outside."""
    while True:
        graph = gen2.any_graph(rnd, level, large)
        unused = sorted(set(range(oracle2.max_region(level) + 1)) - graph.R)
        inside = closure(graph, rnd.choice(sorted(graph.R)))
        inside |= set(rnd.sample(unused, min(rnd.choice((0, 0, 1, 3)), len(unused))))
        inner = within(graph, inside)
        if inner.B and len(inner.F) < oracle2.MAX_CONNECTIONS and len(inside) <= oracle2.max_region(level):
            break
    first = graph if graph.R - inside else built_around(rnd, level, inner, inside, graph)
    second = built_around(rnd, level, inner, inside, first)
    assert oracle2.agree_on(first, second, inside)
    return first, second, inside


def leading_out(rnd, graph, inside):
    """The graph with one more connection: it leads from a bundle's region in the set to one outside, and passes all that it can."""
    regions = {bundle.region for bundle in graph.B.values()}
    pair = rnd.choice(sorted(regions & inside)), rnd.choice(sorted(regions - inside or graph.R - inside))
    outside = sorted(location for location, bundle in graph.B.items() if bundle.region not in inside)
    return oracle2.Graph(graph.R, graph.B, {**graph.F, pair: oracle2.Filter(tuple(outside[:16]), oracle2.ALL, oracle2.ALL)})


def some_items(rnd, graphs, kind):
    """Items of a kind that one of the graphs has, and some that none has, in any order."""
    held = sorted(set().union(*(items_held(graph, kind) for graph in graphs)))
    absent = [(number, 0) for number in range(100) if (number, 0) not in held]
    items = rnd.sample(held, min(MOST_ASKED, len(held))) + rnd.sample(absent, ABSENT)
    return rnd.sample(items, len(items))


def some_candidates(rnd, graphs, items):
    """Candidates that one of the graphs has, whose exporters stand in the set or outside it, and others, in any order."""
    exported = sorted(set().union(*map(candidates.exported, graphs)))
    some = rnd.sample(exported, min(MOST_ASKED, len(exported)))
    some += [(rnd.choice(items[oracle2.BUNDLE])[0], *rnd.choice(items[oracle2.PACKAGE])) for _ in range(MIXED)]
    return rnd.sample(some, len(some))


def find_lines(asker, items, offers):
    """Every find, and the resolve, of a bundle: with room, with just enough of it, with too little."""
    for call, kind in FINDS.items():
        for more in (2, 0, -1):
            yield "%s %d %d %s" % (call, asker, len(items[kind]) + more, oracle2.show([number for number, _ in items[kind]]))
    for more in ((2, 0, 1), (0, 0, 0), (-1, 0, 0), (0, -1, 0), (0, 0, -1)):
        yield candidates.line_of(asker, [len(offers) + each for each in more], offers)
    yield candidates.line_of(asker, (1, 1, 1), offers[:1])


def asker_lines(rnd, level, asker, items, offers):
    """Every find, resolve and route of a bundle, and a route of no kind. The version of an item that is no package has no say."""
    yield from find_lines(asker, items, offers)
    length = oracle2.route_bytes(level)
    asked = [(kind, number, version if kind == oracle2.PACKAGE else rnd.choice((0, 1, oracle2.TOP_VERSION)))
             for kind in KINDS for number, version in items[kind]]
    for item in asked:
        yield "route %d %d %d %d %d" % (asker, *item, length + rnd.choice((0, 0, 4)))
    kind, number, version = rnd.choice(asked)
    yield "route %d %d %d %d %d" % (asker, kind, number, version, length - 1)
    yield "route %d %d %d %d %d" % (asker, rnd.choice((3, 4, 255) + LARGE), number, version, length)


def event_lines(rnd, bundles, items):
    """Every event, with all bundles as listeners in any order, some of them twice: with room, and with too little."""
    for call, kind in EVENTS.items():
        for number, _ in items[kind]:
            listeners = bundles + rnd.choices(bundles, k=2)
            rnd.shuffle(listeners)
            for more in (rnd.choice((0, 2)), -1):
                yield "%s %d %d %s" % (call, len(listeners) + more, number, oracle2.show(listeners))


def note_regions(coverage, first, second, inside):
    """Notes regions that version 1 has no number for, of the set and outside it."""
    above = {region for graph in (first, second) for region in graph.R if region > 15}
    for name, holds in ((ABOVE_INSIDE, above & inside), (ABOVE_OUTSIDE, above - inside)):
        if holds:
            coverage.note(name, 0)


def case_isolation(s, rnd, i):
    """Two graphs that agree on a set of regions, and the six queries of every bundle of the set on the one and on the other; then the
    same on the second with a connection that leads out of the set. So that a script stays short, up to MOST_ASKED items of a kind,
    and candidates, are asked for, of those that the graphs have."""
    first, second, inside = agreeing(rnd, s.level, large=i % 3 == 0)
    note_regions(s.coverage, first, second, inside)
    bundles = sorted(within(first, inside).B)
    items = {kind: some_items(rnd, (first, second), kind) for kind in KINDS}
    offers = some_candidates(rnd, (first, second), items)
    lines = [line for asker in bundles for line in asker_lines(rnd, s.level, asker, items, offers)]
    lines += event_lines(rnd, bundles, items)
    answers = []
    for graph in (first, second, leading_out(rnd, second, inside)):
        s.put("start " + oracle2.image(s.level, graph).hex())
        answers.append([s.put(line) for line in lines])
    assert answers[0] == answers[1], "C-12 does not hold in the oracle"
    for line, before, after in zip(lines, *answers[1:]):
        if before != after:
            s.coverage.note(LED_OUT[line.split(" ")[0]], 0)


# ---- region numbers up to 63, and versions of an archive: requests C-13 and C-15

FRONTS = (0, 4, 5, 128, 255)    # versions that are not read
MOST_FILES = 30         # of a script


def put_images(s, rnd):
    """Writes the record, to a buffer that is too short too."""
    length = len(oracle2.image(s.level, s.g))
    s.put("image")
    s.put("write %d" % (length + rnd.choice((0, 3, -1))))


def put_beyond(s, rnd):
    """Every call that takes a region, with a number that no region has; in some the other end is none either, or both are equal."""
    region, other = rnd.choice(BEYOND), rnd.choice(EDGES + BEYOND)
    for call in (("add", region), ("remove", region), ("install", region, 7, [], [], []), ("disconnect", other, region),
                 ("connect", region, other, [], oracle2.ALL, []), ("connect", other, region, [], oracle2.ALL, [])):
        s.call(*call)


def case_numbers(s, rnd, i):
    """Regions at the edges come, are connected and go again, in any order; the images show them in between."""
    s.put("start empty")
    regions = rnd.sample(EDGES, rnd.randint(2, len(EDGES)))
    for region in regions:
        s.call("add", region)
        s.call("install", region, 100 + region, [region], [region], [5, 100 + region])
        put_images(s, rnd)
    for source, target in zip(regions, regions[1:] + regions[:1]):
        s.call("connect", source, target, [100 + target], oracle2.ALL, [5, 100 + target])
    put_beyond(s, rnd)
    for asker in regions:
        for kind, item in ((oracle2.PACKAGE, rnd.choice(EDGES)), (oracle2.SERVICE, 100 + rnd.choice(EDGES))):
            s.put("route %d %d %d %d %d" % (100 + asker, kind, item, item, rnd.choice(ROUTE_ROOMS)))
    for region in rnd.sample(regions, len(regions)):
        s.call("disconnect", region, rnd.choice(EDGES))
        s.call("remove", region)
        put_images(s, rnd)


def line_of(regions):
    """A connection from each region to the next."""
    return list(zip(regions, regions[1:]))


def diamonds_of(regions):
    """From a region to two others, from both to the next, and so on: routes that are equally long, and chosen by the numbers."""
    steps = [regions[at:at + 4] for at in range(0, len(regions) - 3, 3)]
    return [pair for a, b, c, d in steps for pair in ((a, b), (a, c), (b, d), (c, d))]


def chain_graph(rnd, i):
    """A graph with routes of up to 48 connections, or of up to 24 with a choice at every second, and the regions in their order. The
    first case has the longest of all, with ascending regions."""
    regions = list(range(15, 64)) if i == 0 else rnd.sample(range(64), rnd.choice((4, 16, 17, 33, 48, 49, 49)))
    pairs = (line_of if i % 3 != 2 else diamonds_of)(regions)[:oracle2.MAX_CONNECTIONS]
    every = set(range(64)) if rnd.random() < 0.5 else set(regions)
    bundles = {100 + region: oracle2.Bundle(region, ((region, region),), (region,)) for region in every}
    named = tuple(sorted({*gen2.subset(rnd, bundles, 15), 100 + regions[-1]}))
    filters = {pair: oracle2.Filter(named, oracle2.ALL, oracle2.ALL) for pair in pairs}
    return oracle2.Graph(every, bundles, filters), regions


def case_chains(s, rnd, i):
    """Long routes, with buffers of all lengths; finds and events along them; then the same after a connection has left."""
    graph, regions = chain_graph(rnd, i)
    if i % 2:
        s.put("start " + oracle2.image(s.level, graph).hex())
    else:
        s.put("start empty")
        for call in oracle2.graph_calls(graph):
            s.call(*call)
    put_images(s, rnd)
    for _ in range(2):
        for asker, target in [(regions[0], regions[-1])] + [rnd.choices(regions, k=2) for _ in range(4)]:
            for kind, item in ((oracle2.BUNDLE, 100 + target), (oracle2.PACKAGE, target), (oracle2.SERVICE, target)):
                for room in (64, rnd.choice(ROUTE_ROOMS)):
                    s.put("route %d %d %d %d %d" % (100 + asker, kind, item, target, room))
        asker, listeners = 100 + regions[0], [100 + region for region in regions]
        s.put("bfind %d %d %s" % (asker, len(listeners), oracle2.show(listeners)))
        s.put(candidates.line(asker, [len(regions)] * 3, listeners, regions, regions))
        s.put("sfind %d %d %s" % (asker, len(regions), oracle2.show(regions)))
        s.put("sevent %d %d %s" % (len(listeners), regions[-1], oracle2.show(listeners)))
        s.call("disconnect", *rnd.choice(sorted(s.g.F)))


def labelled(front, regions, count=None):
    """A file with a front byte and regions, whatever they are, and at times another count of regions; some with a bundle in the last
    region and a connection to it."""
    graph = oracle2.Graph(())
    if len(regions) > 1 and regions[-1] % 2:
        graph = oracle2.Graph(regions, {10: oracle2.Bundle(regions[-1], ((1, 0),), (2,))},
                              {(regions[0], regions[-1]): oracle2.Filter((10,), oracle2.ALL, (2,))})
    tree = gen2.Tree(graph, min(front, 3))
    tree.version, tree.regions, tree.rcount = front, list(regions), count
    return tree.bytes()


def region_lists(rnd):
    """Regions of a file, on both sides of what a version may have."""
    yield from ([], range(16), range(17), range(16, 64), range(64), range(63), range(65), [*range(16), 63], [0, 15], [15, 16], [63, 64])
    yield from ([region] for region in EDGES + BEYOND[:6])
    yield from (sorted(rnd.sample(range(top), rnd.randint(1, top))) for top in (16, 64, 66))


def case_versions(s, rnd, i):
    """Files with each front byte, read over one another."""
    files = [labelled(front, list(regions)) for regions in region_lists(rnd) for front in (1, 2, 3, rnd.choice(FRONTS))]
    files += [labelled(front, list(range(64)), count) for front in (2, 3) for count in (63, 65, 255)]
    put_archives(s, rnd, rnd.sample(files, MOST_FILES))


# gen2's functions make their scripts by this name, and all that this table has.
gen2.Script = Script
gen2.CAPABILITIES.update({"wide": (10, case_wide, 1), "over": (10, case_over, 1), "names": (11, case_names, 3),
                          ISOLATION: (12, case_isolation, 3), "numbers": (13, case_numbers, 1), "chains": (13, case_chains, 1),
                          "versions": (13, case_versions, 1), "candidates": (14, candidates.case_candidates, 2),
                          "packages": (15, packages.case_packages, 2), "conversions": (16, conversions.case_conversions, 3)})
