"""Conversions of archives, request C-16: what a forward or a back shows, and cases of them. The oracle stands on the path of
whoever imports this."""

import functools
import random

import gen2
import oracle2

ALL, TOP = oracle2.ALL, oracle2.TOP_VERSION

# The calls, each with the other one, and with the versions that it admits.
OTHER = {"forward": "back", "back": "forward"}
ADMITTED = {"forward": (1, 2), "back": (3,)}
MOST_ADDED = 4096       # bytes that a forward adds to a file, at most

# What is noted of a conversion, by a name and the number of the answer. All of it must be reached.
# An accepted one.
FROM, TO = "forward, version %d", "back, to version %d"
EXACT, LONGER = "%s, a buffer of its length", "%s, a longer buffer"
LISTED = "%s, exports and entries"
AS_LONG = "%s, as long as before"
WITH_ALL = "back, all packages"
# A refused one: the buffer has no byte, or bytes that must stay.
NO_BYTE, BYTES = "%s, a buffer of no byte", "%s, a buffer of bytes"
ONE_SHORT = "%s, a byte too few"
OF_OTHER = "%s, an image of version %d"
CUT = "%s, fewer than 5 bytes"
MISLABELLED = "forward, version %d for %d"
BROKEN = "back, broken behind versions"
# 21 by one field alone: the field, its place among those of its kind, the byte of it that differs.
ALONE, PLACE, BYTE = "back, a %s alone", "back, a %s alone, the %s", "back, a %s alone, its %s byte"
FIELDS = ("version", "lowest", "highest")

REFUSALS = {"forward": (15, 16, 17), "back": (15, 16, 17, 21)}
SHOWN = ([(name % call, 0) for name in (EXACT, LONGER, LISTED, AS_LONG) for call in OTHER]
         + [(name % version, 0) for name in (FROM, TO) for version in (1, 2)] + [(WITH_ALL, 0)]
         + [(name % call, number) for name in (NO_BYTE, BYTES) for call in OTHER for number in (*REFUSALS[call], 14)]
         + [(ONE_SHORT % call, 14) for call in OTHER] + [(CUT % call, 15) for call in OTHER]
         + [(OF_OTHER % pair, 15) for pair in (("forward", 3), ("back", 1), ("back", 2))]
         + [(MISLABELLED % pair, 17) for pair in ((1, 2), (2, 1))] + [(BROKEN, 17)]
         + [(ALONE % field, 21) for field in FIELDS]
         + [(PLACE % (field, place), 21) for field in FIELDS for place in ("first", "last")]
         + [(BYTE % (field, byte), 21) for field in FIELDS for byte in ("low", "high")])
# These need long files: the longest image as what a forward writes, and as what a back reads.
LONGEST = len(oracle2.image_of_version(3, gen2.longest_graph(16)))
OF_LONGEST = "%s, the longest image"
SHOWN_LONG = [(OF_LONGEST % "forward", 0), (OF_LONGEST % "back", 0), (OF_LONGEST % "back", 21)]


@functools.lru_cache(maxsize=100)
def converted(call, data):
    """The number of a conversion for which there is room, and the new image."""
    number, length, out = {"forward": oracle2.forward, "back": oracle2.back}[call](data, bytes(len(data) + MOST_ADDED))
    return number, out[:length or 0]


@functools.lru_cache(maxsize=100)
def graph_of(data):
    """The graph that a file of any version means, and the number of its read."""
    return oracle2.read_admitting((1, 2, 3), data)


def fields_of(graph):
    """The versions of exports and the lowest and highest ones of entries, in the order of a file, with the value that goes back."""
    exports = [version for _, bundle in sorted(graph.B.items()) for _, version in bundle.packages]
    entries = [entry for _, passed in sorted(graph.F.items()) if passed.packages != ALL for entry in passed.packages]
    _, lowest, highest = oracle2.turned(entries, 3)
    return dict(zip(FIELDS, ((exports, 0), (lowest, 0), (highest, TOP))))


def of_fields(graph):
    """What keeps a graph from going back, where it is one field alone."""
    wrong = [(field, values, right, at) for field, (values, right) in fields_of(graph).items()
             for at, value in enumerate(values) if value != right]
    if len(wrong) != 1:
        return
    field, values, right, at = wrong[0]
    yield ALONE % field
    if len(values) > 1 and at in (0, len(values) - 1):
        yield PLACE % (field, "last" if at else "first")
    if values[at] // 256 == right // 256 or values[at] % 256 == right % 256:
        yield BYTE % (field, "high" if values[at] % 256 == right % 256 else "low")


def of_accepted(call, data, room, image):
    graph, _ = graph_of(data)
    yield FROM % data[0] if call == "forward" else TO % image[0]
    yield (LONGER if room > len(image) else EXACT) % call
    if all(values for values, _ in fields_of(graph).values()):
        yield LISTED % call
    if len(image) == len(data) and graph.B and graph.F:
        yield AS_LONG % call
    if call == "back" and any(passed.packages == ALL for passed in graph.F.values()):
        yield WITH_ALL
    if LONGEST in (len(image), len(data)):
        yield OF_LONGEST % call


def of_refused(call, data, room, number):
    yield (BYTES if room else NO_BYTE) % call
    graph, refused = graph_of(data)
    if number == 14 and room == len(converted(call, data)[1]) - 1:
        yield ONE_SHORT % call
    if number == 15 and not refused:
        yield OF_OTHER % (call, data[0])
    if number == 15 and data[:1] and data[0] in ADMITTED[call]:
        yield CUT % call
    if number == 17 and call == "forward" and graph_of(bytes([3 - data[0]]) + data[1:])[1] == 0:
        yield MISLABELLED % (data[0], 3 - data[0])
    if number == 17 and len(data) > 5 and converted("back", gen2.recut(data[:-1]))[0] == 21:
        yield BROKEN
    if number == 21:
        yield from of_fields(graph)
        if len(data) == LONGEST:
            yield OF_LONGEST % call


def shown(data, words, answer):
    """The pairs of a name and a number that a conversion and its answer show, those of SHOWN and SHOWN_LONG among them."""
    call, room, number = words[0], int(words[1]), int(answer[0])
    if number:
        return [(name, number) for name in of_refused(call, data, room, number)]
    return [(name, 0) for name in of_accepted(call, data, room, oracle2.unhex(answer[2])[:int(answer[1])])]


# ---- both ways

def of_script(lines, answers):
    """The conversions of a script: the place of the line, the call, the file, and what the answer says is written, None where it is
    refused."""
    file = b""
    for at, (line, answer) in enumerate(zip(lines, answers)):
        words = line.split(" ")
        if words[0] == "archive":
            file = oracle2.unhex(words[1])
        elif words[0] in OTHER:
            fields = answer.split(" ")
            accepted = len(fields) == 3 and fields[0] == "0" and fields[1].isdigit()
            yield at, words[0], file, oracle2.unhex(fields[2])[:int(fields[1])] if accepted else None


# ---- cases

FRONTS = (0, 4, 128, 255)                           # versions that nothing admits
DIFFERENT = (1, 255, 256, 0x8000, 0xFF00, TOP)      # bits of a field that are changed: of its low byte, of its high one, of both


def lines_of(rnd, data):
    """Both conversions of a file: an accepted one with buffers of the new length, longer, a byte too short and with no byte, a
    refused one with no byte and with some."""
    for call in OTHER:
        number, image = converted(call, data)
        rooms = (0, rnd.choice((1, 7, len(data), len(data) + 9)))
        if number == 0:
            rooms = (len(image), len(image) + rnd.choice((1, 7)), len(image) - 1, 0)
        yield from ("%s %d" % (call, room) for room in rooms)


def images_of(graph):
    """The older image of a graph that has one, and the image of version 3."""
    return [oracle2.image_of_version(version, graph) for version in (oracle2.old_version(graph), 3)]


def without_packages(graph):
    bundles = {location: bundle._replace(packages=()) for location, bundle in graph.B.items()}
    filters = {pair: passed._replace(packages=()) for pair, passed in graph.F.items()}
    return oracle2.Graph(graph.R, bundles, filters)


def changed_at(elements, at, field, value):
    """Exports or entries with another value in a field of one of them."""
    numbers = list(elements[at])
    numbers[{"version": 1, "lowest": 1, "highest": 2}[field]] = value
    return elements[:at] + (tuple(numbers),) + elements[at + 1:]


def changed(rnd, graph):
    """The graph with another value in one field: the first or last of its kind or any."""
    field = rnd.choice([field for field, (values, _) in fields_of(graph).items() if values])
    records = dict(graph.B if field == "version" else graph.F)
    places = [(key, at) for key, record in sorted(records.items()) if record.packages != ALL for at in range(len(record.packages))]
    key, at = rnd.choice((places[0], places[-1], rnd.choice(places)))
    value = fields_of(graph)[field][1] ^ rnd.choice(DIFFERENT)
    records[key] = records[key]._replace(packages=changed_at(records[key].packages, at, field, value))
    return oracle2.Graph(graph.R, records, graph.F) if field == "version" else oracle2.Graph(graph.R, graph.B, records)


def files(rnd, graph):
    """Files of a graph that can go back: its images; those of the graph without packages; images with a field changed, whole and
    broken; and images with another front byte, cut or damaged."""
    older, latest = images_of(graph)
    yield from (older, latest, *images_of(without_packages(graph)))
    if any(values for values, _ in fields_of(graph).values()):
        several = [oracle2.image_of_version(3, changed(rnd, graph)) for _ in range(4)]
        yield from (*several, gen2.recut(several[0] + b"\0"), gen2.recut(several[1][:-1]), several[2] + b"\0")
    yield bytes([3 - older[0]]) + older[1:]
    for image in (older, latest):
        yield from (bytes([rnd.choice(FRONTS)]) + image[1:], image[:rnd.randrange(1, 5)])
        yield from (image + b"\0", gen2.random_damage(rnd, image))


def some_files(level, seed, count):
    """Files of several graphs."""
    for i in range(count):
        rnd = random.Random("conversions %d %d" % (seed, i))
        yield from files(rnd, gen2.any_graph(rnd, level, old=True))


def case_conversions(s, rnd, i):
    """Both conversions of files of a graph that can go back."""
    for data in files(rnd, gen2.any_graph(rnd, s.level, large=i % 8 == 0, old=True)):
        s.put("archive " + oracle2.hexs(data))
        for line in lines_of(rnd, data):
            s.put(line)
