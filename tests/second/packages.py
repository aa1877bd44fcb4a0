"""Packages by version, request C-15: what a line shows of versions and ranges, and cases of them. The oracle stands on the path of
whoever imports this."""

import gen2
import oracle2

TOP = oracle2.TOP_VERSION

# What is noted of a line, by a name and the number of the answer. All of it must be reached.
# A route for a package. Hidden: its number is held in the own region, or the next one holds it and the version is just outside.
EDITION = "route, held in another version"
BELOW, ABOVE = "route, below the lowest", "route, above the highest"
# Seen over one connection, by the entry that passes it.
AT_LOWEST, AT_HIGHEST, INSIDE, POINT = "route, at the lowest", "route, at the highest", "route, between", "route, at the only version"
AT_TOP, BY_ALL = "route, at 65535", "route, another version than 0 by all"
# A route or a query for an item that is no package.
IGNORED = "%s, kind %d with a version"
# The packages of an install.
EDITIONS = "install, versions of a number"
DOWN, TWICE = "install, versions descend", "install, a package twice"
OF_LENGTH = "install, %s %s"
CUT = "install, cut to 8"
SURPLUS = "install, surplus out of order"
# The package part of a connect.
REVERSED = "connect, range reversed"
REVERSED_FULL = "connect, range reversed, 48 there"
REVERSED_BEHIND = "connect, range reversed in the surplus"
ONE_VERSION = "connect, one version"
TWO_ENTRIES = "connect, two entries of a number"
MORE_OF, CUT_PART = "connect, more %s", "connect, cut to 16"
LISTS = ("numbers", "lowest", "highest")
# A file that is read.
REVERSED_FILE = "read, range reversed"
UNVERSIONED = "read, version 3 without versions"
OLDER = "read, version %d with packages"

SHOWN = ([(name, 0) for name in (EDITION, BELOW, ABOVE, AT_LOWEST, AT_HIGHEST, INSIDE, POINT, AT_TOP, BY_ALL, EDITIONS, CUT, SURPLUS,
                                 REVERSED_BEHIND, ONE_VERSION, CUT_PART, UNVERSIONED)]
         + [(IGNORED % (call, kind), number) for call, number in (("route", 0), ("query", 100)) for kind in (0, 2)]
         + [(OF_LENGTH % pair, 0) for pair in (("more", "numbers"), ("more", "versions"), ("no", "numbers"), ("no", "versions"))]
         + [(MORE_OF % name, 0) for name in LISTS] + [(OLDER % version, 0) for version in (1, 2)]
         + [(DOWN, 8), (TWICE, 8), (CUT, 7), (TWO_ENTRIES, 8), (REVERSED_FULL, 20), (REVERSED_FILE, 17)]
         + [(REVERSED, number) for number in (1, 3, 4, 5, 7, 8, 20)])


def entry_of(part, number):
    """The lowest and the highest version of a number that a package part passes, if it has an entry of it."""
    return next((tuple(ends) for each, *ends in (() if part == oracle2.ALL else part) if each == number), None)


def of_hidden(graph, region, number, version):
    if any(bundle.region == region and number in dict(bundle.packages) for bundle in graph.B.values()):
        yield EDITION
    for (source, target), passed in graph.F.items():
        ends = entry_of(passed.packages, number)
        if source == region and ends and oracle2.holds(graph, target, oracle2.PACKAGE, (number, version)):
            yield from (name for name, end in ((BELOW, ends[0] - 1), (ABOVE, ends[1] + 1)) if version == end)


def of_seen(part, number, version):
    """A package that is seen over one connection with a package part."""
    if part == oracle2.ALL:
        return [BY_ALL] if version else []
    ends = entry_of(part, number)
    if ends[0] == ends[1]:
        return [POINT]
    where = AT_LOWEST if version == ends[0] else AT_HIGHEST if version == ends[1] else INSIDE
    return [where] + [AT_TOP] * (version == TOP)


def of_route(graph, words, answer):
    location, kind, number, version = map(int, words[1:5])
    seen = answer[1] != oracle2.HIDDEN
    if kind != oracle2.PACKAGE:
        return [IGNORED % ("route", kind)] if seen and version else []
    if not seen:
        return of_hidden(graph, graph.B[location].region, number, version)
    regions = oracle2.unhex(answer[2])[:2]
    return of_seen(graph.F[tuple(regions)].packages, number, version) if answer[1] == "1" else []


def of_query(graph, words, answer):
    kind, version = int(words[2]), int(words[4])
    return [IGNORED % ("query", kind)] if kind != oracle2.PACKAGE and version else []


def of_install(graph, words, answer):
    numbers, versions = map(oracle2.parse_list, words[3:5])
    pairs = list(zip(numbers, versions))
    longer, shorter = ("numbers", "versions") if len(numbers) > len(versions) else ("versions", "numbers")
    if len(numbers) != len(versions):
        yield OF_LENGTH % (("more", longer) if pairs else ("no", shorter))
    if max(len(numbers), len(versions)) > oracle2.MAX_HELD:
        yield CUT
    if len(pairs) > len(set(numbers[:len(pairs)])):
        yield EDITIONS
    if numbers[:len(pairs)] == sorted(numbers[:len(pairs)]) and pairs != sorted(pairs):
        yield DOWN
    if len(pairs) > len(set(pairs)):
        yield TWICE
    if not oracle2.strictly_ascending(numbers) and oracle2.strictly_ascending(numbers[:len(pairs)]):
        yield SURPLUS


def is_reversed(lowest, highest):
    return any(low > high for low, high in zip(lowest, highest))


def of_connect(graph, words, answer):
    lists = [oracle2.parse_list(word) for word in words[4:7]]
    if lists[0] == oracle2.ALL:
        return
    count = min(map(len, lists))
    numbers, lowest, highest = (each[:count] for each in lists)
    if is_reversed(lowest, highest):
        yield REVERSED
        if len(graph.F) == oracle2.MAX_CONNECTIONS:
            yield REVERSED_FULL
    elif is_reversed(*lists[1:]):
        yield REVERSED_BEHIND
    if any(low == high for low, high in zip(lowest, highest)):
        yield ONE_VERSION
    if count > len(set(numbers)) and numbers == sorted(numbers):
        yield TWO_ENTRIES
    if max(map(len, lists)) > oracle2.MAX_PART:
        yield CUT_PART
    yield from (MORE_OF % name for name, each in zip(LISTS, lists) if len(each) > max(len(x) for x in lists if x is not each))


def of_read(graph, words, answer):
    data = oracle2.unhex(words[1])
    if data[:1] == b"\3" and answer[0] == "17" and oracle2.why_broken(data) == "lowest version above highest":
        yield REVERSED_FILE
    if answer[0] == "0":
        read, _ = oracle2.read_admitting((1, 2, 3), data)
        if data[0] == 3 and oracle2.can_go_back(read):
            yield UNVERSIONED
        if data[0] < 3 and any(bundle.packages for bundle in read.B.values()):
            yield OLDER % data[0]


CALLS = {"route": of_route, "query": of_query, "install": of_install, "connect": of_connect, "lent": of_read}


def shown(graph, words, answer):
    """The pairs of a name and a number that a line and its answer show, those of SHOWN among them; graph is what stands before it."""
    number = int(answer[0]) if words[0] in CALLS else None
    if number is None or words[0] == "route" and number:
        return []
    return [(name, number) for name in CALLS[words[0]](graph, words, answer)]


# ---- cases

EDGES = (0, 1, 2, 9, 255, 256, 257, 32767, 32768, 65534, 65535)
NUMBERS = (0, 5, 256, 2**32 - 1)
ASKER, NEXT, LAST = 10, 20, 30          # bundles in the regions 0, 1 and 2 of a row

# Lists of an install, and of a package part: of different lengths, out of order, with too many elements, reversed.
INSTALLS = (([1, 1, 2], [0, 7, 0]), ([1, 1], [7, 7]), ([1, 1], [7, 0]), ([2, 1], [0, 9]), ([5] * 8, range(8)), ([5] * 9, range(9)),
            (range(9), [0] * 8), (range(8), [0] * 9), (range(300), [3]), ([4], range(300)), ([1, 2, 1], [0, 0]), ([], [5]), ([5], []))
PARTS = (([5], [9], [9]), ([5], [9], [8]), ([5, 5], [0, 10], [9, 20]), ([6, 5], [9, 0], [8, 9]), ([5], [0, 9], [9, 8]), ([5, 6], [0, 9], [9]),
         (range(17), [9] * 17, [8] * 17), (range(17), [0] * 16, [1] * 17), (range(17), [0] * 17, [1] * 16), (range(16), [0] * 17, [1] * 17),
         ([1, 2, 2], [0, 0], [1, 1]), ([1], [0], [1] * 300), ([1], [0, 0], [1]), ([1], [TOP], [0]), ([1], [0], [TOP]), ([], [1], [0]))


def near(version):
    """A version and those beside it."""
    return [each for each in (version - 1, version, version + 1) if 0 <= each <= TOP]


def lists_of(rnd, lists):
    """The lists, at times with something behind one of them."""
    lists = [list(each) for each in lists]
    if rnd.random() < 0.3:
        lists[rnd.randrange(len(lists))] += [rnd.choice((0, 1, 9, TOP)) for _ in range(rnd.randint(1, 3))]
    return lists


def some_range(rnd, versions):
    ends = sorted(rnd.choices([*versions, *EDGES], k=2))
    return rnd.choice((ends, ends, [ends[0]] * 2, [0, ends[1]], [ends[0], TOP]))


def put_row(s, rnd):
    """Three regions in a row. Bundles in the last two export some numbers in versions beside an edge, and connections pass some ranges of
    them. Hands back the versions."""
    versions = sorted({*near(rnd.choice(EDGES)), *near(rnd.choice(EDGES))})
    s.put("start empty")
    for region in range(3):
        s.call("add", region)
    s.call("install", 0, ASKER, *lists_of(rnd, ([5], [versions[0]])), [7])
    for region, location in ((1, NEXT), (2, LAST)):
        pairs = gen2.subset(rnd, [(number, version) for number in NUMBERS for version in versions], 8)
        s.call("install", region, location, *lists_of(rnd, oracle2.turned(pairs, 2)), [7, 8])
    for source in range(2):
        numbers = gen2.subset(rnd, NUMBERS, len(NUMBERS))
        ranges = [some_range(rnd, versions) for _ in numbers]
        part = [list(numbers), *oracle2.turned(ranges, 2)]
        s.call("connect", source, source + 1, [NEXT, LAST], oracle2.ALL if rnd.random() < 0.2 else lists_of(rnd, part), [7, 8])
    return versions


def put_queries(s, rnd, versions):
    """Routes, queries and a resolve for every number in every version, and for bundles and services with any version."""
    s.put("archive " + oracle2.image(s.level, s.g).hex())
    items = [(number, version) for number in NUMBERS for version in versions]
    for asker in (ASKER, rnd.choice((NEXT, LAST))):
        for item in items:
            s.put("route %d 1 %d %d 64" % (asker, *item))
        for kind, number in ((0, LAST), (0, NEXT), (2, 7), (2, 9)):
            s.put("route %d %d %d %d 64" % (asker, kind, number, rnd.choice((1, 256, TOP))))
            s.put("query %d %d %d %d" % (asker, kind, number, rnd.choice((1, 256, TOP))))
        for item in rnd.sample(items, min(6, len(items))):
            s.put("query %d 1 %d %d" % (asker, *item))
        offers = [(exporter, *item) for exporter in (NEXT, LAST) for item in items]
        s.put("resolve %d %s %s" % (asker, oracle2.show([len(offers)] * 3), " ".join(map(oracle2.show, oracle2.turned(offers, 3)))))


def put_refusals(s, rnd):
    """Lists of all sorts, at ends that are right and at others."""
    for lists in rnd.sample(INSTALLS, 6):
        s.call("install", rnd.randrange(3), rnd.randrange(100, 200), *lists_of(rnd, lists), [])
    for lists in rnd.sample(PARTS, 8):
        ends = rnd.choice(((2, 0), (2, 0), (2, 0), (2, 1), (0, 1), (64, 0), (0, 9), (1, 1)))
        if s.call("connect", *ends, [], lists_of(rnd, lists), []) == "0":
            s.call("disconnect", *ends)


def put_full(s, rnd):
    """A reversed range, and one that is none, where there are 48 connections, and where there is a place again."""
    pairs = [(source, target) for source in range(8) for target in range(8) if source != target]
    filters = {pair: oracle2.Filter((), ((1, 0, 9),), ()) for pair in pairs[:oracle2.MAX_CONNECTIONS]}
    s.put("start " + oracle2.image(s.level, oracle2.Graph(range(8), {}, filters)).hex())
    parts = (([5], [9], [8]), ([5], [8], [9]), ([6, 5], [9, 9], [8, 8]), oracle2.ALL)
    for _ in range(2):
        for part in rnd.sample(parts, len(parts)):
            if s.call("connect", *pairs[-1], [], part, []) == "0":
                s.call("disconnect", *pairs[-1])
        s.call("disconnect", *pairs[0])


def case_packages(s, rnd, i):
    """Versions at the ends of ranges and beside them; lists of all sorts; the record after that; and a graph with no place left."""
    versions = put_row(s, rnd)
    put_queries(s, rnd, versions)
    put_refusals(s, rnd)
    s.put("image")
    put_full(s, rnd)
