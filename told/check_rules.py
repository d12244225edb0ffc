"""The check, told again: what `drc` finds in a project of sheets and symbols, and what it answers.

It shares no code with the program. What is on a sheet, and how often, stands in hierarchy_rules.py,
and what joins in project_rules.py. A finding is a code, the words behind its name, and a level;
texts are compared by code points, which is the order of the bytes of UTF-8.
"""
import collections
import functools
import itertools

import component_rules
from component_rules import net_entry, small_number
from hierarchy_rules import NAME, Ends, gathered, groups_of, instances_of, read
from printed import word
from project_rules import asked_of, listed_nets, listed_parts

MOST_BYTES = 4_194_304
ERROR, WARNING = "error", "warning"
LEVELS = {"c": None, "w": WARNING, "e": ERROR}
KINDS = (*component_rules.KINDS, "unconnected")
USUAL = "c cc cce ccwc ccewe ccewce ccccccc cceweece cceccccec ccccceceec cceweeceeec".split()
USUAL.append("e" * 12)
NAMES = (
    "Unnumbered", "NoRefdes", "DuplicateRefdes", "DuplicateSlot", "BadSlot", "UnusedSlot",
    "UnknownPintype", "Conflict", "OnePin", "UnconnectedPin", "NotDriven", "PinOnTwoNets",
    "MissingSymbol", "MissingSource", "SourceLoop", "Unreached", "BadNet", "SameText",
    "NoConnection",
)
CODES = {name: code for code, name in enumerate(NAMES, 1)}


# The matrix.

def level(matrix, one, other):
    """What a matrix says of two kinds, whichever of them is named first; None where it is right."""
    column, row = sorted((KINDS.index(one), KINDS.index(other)))
    return LEVELS[matrix[row][column]]


def is_matrix(document):
    """Whether a TOML document has rows alone, each with a letter more than the one above it."""
    rows = document.get("rows")
    if len(document) != 1 or not isinstance(rows, list) or len(rows) != len(KINDS):
        return False
    return all(
        isinstance(row, str) and len(row) == size and set(row) <= set(LEVELS)
        for size, row in enumerate(rows, 1)
    )


def matrix_of(files, name):
    """The rows of a matrix that a file has. Older Pythons have no reader for it."""
    import tomllib

    data = read(files, name, bytes)
    if data is None:
        raise Ends(1, f"{name}: missing")
    try:
        document = tomllib.loads(data.decode()) if len(data) <= MOST_BYTES else None
    except ValueError:
        document = None
    if document is None:
        raise Ends(1, f"{name}: BadToml")
    if not is_matrix(document):
        raise Ends(1, f"{name}: BadRows")
    return document["rows"]


# What is looked at.

class Seen:
    """A project as the check looks at it. Components are those in an instance that are neither
    graphical nor directives, each once an instance."""

    def __init__(self, sheets, matrix):
        self.sheets, self.matrix = sheets, matrix
        self.instances = instances_of(sheets)
        self.nets = listed_nets(list(groups_of(self.instances)))
        self.parts = listed_parts(self.instances)

    def level(self, one, other):
        return level(self.matrix, one, other)

    def components(self):
        """The components with their instances."""
        for instance in self.instances:
            for component in instance.sheet.components:
                if not component.is_annotation:
                    yield instance, component

    @functools.cached_property
    def printed(self):
        """The listed parts and the composites that have a refdes, by the refdes that prints."""
        found = collections.defaultdict(list)
        for refdes, component in self.parts:
            found[refdes].append(component)
        for instance, component in self.components():
            if component.sources and component.refdes is not None:
                found[instance.under(component.refdes)].append(component)
        return found


# The findings on refdes and slots. Each has its level, its name, and its words.

def unnumbered(seen):
    for refdes in seen.printed:
        if refdes.endswith("?"):
            yield ERROR, "Unnumbered", refdes


def no_refdes(seen):
    for instance, component in seen.components():
        is_joined = component.pins and not component.values("net")
        if component.refdes is None and (component.sources or is_joined):
            yield ERROR, "NoRefdes", instance.name, str(component.key)


def duplicates(seen):
    for refdes, components in seen.printed.items():
        are_whole = [it.sources or it.value("slot") is None for it in components]
        if len(components) > 1 and any(are_whole) and not refdes.endswith("?"):
            yield ERROR, "DuplicateRefdes", refdes


def duplicate_slots(seen):
    slots = collections.Counter((refdes, it.value("slot")) for refdes, it in seen.parts)
    for (refdes, slot), count in slots.items():
        if slot is not None and count > 1 and not refdes.endswith("?"):
            yield ERROR, "DuplicateSlot", refdes, slot


def bad_slots(seen):
    for refdes, component in seen.parts:
        if isinstance(component.slot_numbers, str):
            yield ERROR, "BadSlot", refdes, component.slot_numbers


def unused_slots(seen):
    most, used = {}, collections.defaultdict(set)
    for refdes, component in seen.parts:
        used[refdes].add(small_number(component.value("slot")))
        count = small_number(component.value("numslots"))
        if count is not None:
            most.setdefault(refdes, count)
    for refdes, count in most.items():
        for slot in set(range(1, count + 1)) - used[refdes]:
            yield WARNING, "UnusedSlot", refdes, str(slot)


# The findings on pins and nets.

def unknown_pintypes(seen):
    for refdes, component in seen.parts:
        for pin in component.pins:
            if pin.kind == "unknown":
                yield WARNING, "UnknownPintype", f"{refdes}-{pin.number}"


def conflicts(seen):
    for net in seen.nets:
        counts = collections.Counter(net.members().values())
        kinds = sorted(counts, key=KINDS.index)
        for one, other in itertools.combinations_with_replacement(kinds, 2):
            found = seen.level(one, other)
            if found and (one != other or counts[one] > 1):
                yield found, "Conflict", net.name, one, other


def one_pin(seen):
    for net in seen.nets:
        if len(net.members()) == 1 and not net.is_unconnected and not net.has_directive:
            yield WARNING, "OnePin", net.name


def unconnected_pins(seen):
    for net in seen.nets:
        for (refdes, number), kind in net.members().items():
            found = seen.level("unconnected", kind)
            if found and net.is_unconnected:
                yield found, "UnconnectedPin", f"{refdes}-{number}"


def not_driven(seen):
    for net in seen.nets:
        are_inputs = set(net.members().values()) <= {"in", "clk"}
        is_open = net.is_unconnected or net.has_directive
        if are_inputs and not is_open and not net.is_global():
            yield ERROR, "NotDriven", net.name


def no_connections(seen):
    for net in seen.nets:
        if net.has_directive and len(net.members()) > 1:
            yield ERROR, "NoConnection", net.name


def pins_on_two_nets(seen):
    nets = collections.Counter(member for net in seen.nets for member in net.members())
    for (refdes, number), count in nets.items():
        if count > 1:
            yield ERROR, "PinOnTwoNets", f"{refdes}-{number}"


# The findings on sheets, and on texts.

def missing_symbols(seen):
    for instance, component in seen.components():
        if not component.has_symbol:
            yield ERROR, "MissingSymbol", instance.name, component.basename


def lost_sources(seen):
    for instance in seen.instances:
        for name, *words in instance.lost(seen.sheets):
            yield ERROR, name, *words


def unreached(seen):
    for name in seen.sheets.keys() - {instance.name for instance in seen.instances}:
        yield WARNING, "Unreached", name


def bad_nets(seen):
    for instance, component in seen.components():
        if None in map(net_entry, component.net_values()):
            yield ERROR, "BadNet", instance.name, str(component.key)


def same_texts(seen):
    for texts in ({net.name for net in seen.nets}, {refdes for refdes, _ in seen.parts}):
        for text, count in collections.Counter(map(word, texts)).items():
            if count > 1:
                yield ERROR, "SameText", text


CHECKS = (
    unnumbered, no_refdes, duplicates, duplicate_slots, bad_slots, unused_slots, unknown_pintypes,
    conflicts, one_pin, unconnected_pins, not_driven, no_connections, pins_on_two_nets,
    missing_symbols, lost_sources, unreached, bad_nets, same_texts,
)


# The report, and the answer.

def findings(seen):
    """Code, words, level and name of each finding, in order."""
    found = set()
    for check in CHECKS:
        for said, name, *words in check(seen):
            found.add((CODES[name], " ".join(map(word, words)), said, name))
    return sorted(found)


def report(found):
    """The text of findings that are in order."""
    lines = [f"findings {len(found)}"]
    lines += [f"{said} {name} {words}" for _, words, said, name in found]
    errors = sum(said == ERROR for _, _, said, _ in found)
    lines.append(f"errors {errors} warnings {len(found) - errors}")
    return "".join(f"{line}\n" for line in lines)


def found_in(files, words):
    matrices, names = asked_of(words, "matrix")
    if not all(map(NAME.fullmatch, matrices)):
        raise Ends(2, "usage")
    matrix = matrix_of(files, matrices[0]) if matrices else USUAL
    return findings(Seen(gathered(files, names).sheets, matrix))


def answer_of(files, words):
    """What `drc` answers for words in a folder of these files: status, what goes out, and the
    error line."""
    try:
        found = found_in(files, words)
    except Ends as ends:
        return ends.status, b"", f"gafd: {ends.said}\n".encode()
    status = 7 if any(said == ERROR for _, _, said, _ in found) else 0
    return status, report(found).encode(), b""
