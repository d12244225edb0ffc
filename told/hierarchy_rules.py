"""The rules for several sheets, told again: which files a project has, which instances its sheets
make, and what joins in each.

It shares no code with the program: files are read by geda_files.py, and which conductors touch is
told in touching.py. A folder is a dictionary from names of files to bytes; a file below a name with
`/` makes that name a folder, which can't be read.
"""
import collections
import re

from component_rules import Component, attributes, values_of
from geda_files import Fault, canonical, read_sheet, read_symbol, written
from touching import classes, classes_by_ends

MOST_OBJECTS = 400_000
MOST_SHEETS = 1_024
MOST_SYMBOLS = 8_192
MOST_TEXT = 67_108_864
MOST_INSTANCES = 4_096
MOST_ROUTE = 16
MOST_WEIGHT = 4_000_000
NAME = re.compile(r"[A-Za-z0-9_+-][A-Za-z0-9_+.-]{0,99}")

Conductor = collections.namedtuple(
    "Conductor", "key names member ties kind is_hidden is_directive", defaults=(False, False)
)
Drawn = collections.namedtuple("Drawn", "key place ends names component")


class Ends(Exception):
    """Why there is no list text: the status, and what the error line says."""

    def __init__(self, status, said):
        super().__init__(said)
        self.status, self.said = status, said


# The files of a project.

def is_folder(files, name):
    return any(other.startswith(f"{name}/") for other in files)


def read(files, name, read_bytes):
    """What a file of the folder has, or None where there is none."""
    if name not in files:
        if is_folder(files, name):
            raise Ends(3, "folder fault")
        return None
    try:
        return read_bytes(files[name])
    except Fault as fault:
        raise Ends(1, f"{name}:{fault.line}: {fault.kind}")


class Sheet:
    """The objects of a sheet, which have the ids from the first one on."""

    def __init__(self, first, items):
        self.first, self.items, self.components = first, items, []

    def weight(self):
        return len(self.items) + sum(len(component.parts) for component in self.components)

    def drawn(self):
        """The conductors that have a place: wires, and drawn pins."""
        for key, item in enumerate(self.items, self.first):
            if item.letter == b"N":
                x1, y1, x2, y2, _ = item.values
                names = values_of(attributes(item.texts), "netname")
                yield Drawn(key, 0, ((x1, y1), (x2, y2)), names, None)
        for component in self.components:
            for place, pin in enumerate(component.pins):
                names = component.global_names.get(pin.number, [])
                yield Drawn(component.key, place, (pin.end,), names, component)

    def touching(self):
        """The classes of these conductors that touch."""
        drawn = list(self.drawn())
        look = classes if len(drawn) < 100 else classes_by_ends
        return [[drawn[at] for at in places] for places in look([(it.ends, None) for it in drawn])]


class Project:
    """The sheets by name, in the order of the queue, and the symbols by name, as they were read."""

    def __init__(self):
        self.sheets, self.symbols, self.parts = {}, {}, {}
        self.asked = set()

    def objects(self):
        return sum(len(sheet.items) for sheet in self.sheets.values())

    def ask(self, files, item):
        """Reads the symbol that a component names, where it was not asked for before."""
        name = item.values[-1].decode()
        if item.parts is not None or not NAME.fullmatch(name) or name in self.asked:
            return
        self.asked.add(name)
        if symbol := read(files, name, read_symbol):
            self.symbols[name], self.parts[name] = symbol, symbol[1]

    def add(self, files, name):
        """Reads a sheet and the symbols that it asks for; yields the sources in their order."""
        file = read(files, name, read_sheet)
        if file is None:
            raise Ends(1, f"{name}: missing")
        sheet = Sheet(self.objects(), file[1])
        self.sheets[name] = sheet
        for key, item in enumerate(sheet.items, sheet.first):
            if item.letter == b"C":
                self.ask(files, item)
                sheet.components.append(Component(key, item, self.parts))
                yield from sheet.components[-1].sources

    def text_size(self):
        """The bytes of the canonical texts of objects and symbols."""
        items = (item for sheet in self.sheets.values() for item in sheet.items)
        objects = sum(len(line) + 1 for item in items for line in written(item))
        return objects + sum(len(canonical(symbol)) for symbol in self.symbols.values())

    def keep_limits(self):
        if self.objects() > MOST_OBJECTS:
            raise Ends(1, "TooManyObjects")
        are_many = len(self.sheets) > MOST_SHEETS or len(self.symbols) > MOST_SYMBOLS
        if are_many or self.text_size() > MOST_TEXT:
            raise Ends(1, "ProjectFull")


def gathered(files, words):
    """The project of the files that the words name, and of those below them."""
    project, queue = Project(), list(words)
    for name in queue:
        for source in project.add(files, name):
            if not NAME.fullmatch(source) or source in queue:
                continue
            if source in files or is_folder(files, source):
                queue.append(source)
    project.keep_limits()
    return project


# The instances of its sheets.

class Instance:
    """A sheet with the route of component ids and the sheets that lead down to it. `labels` has the
    keys of the pins of the component above, by their labels."""

    def __init__(self, sheet, way, route=(), path="", labels=None):
        self.sheet, self.way, self.route, self.path = sheet, way, route, path
        self.name, self.labels = way[-1], labels or {}

    def under(self, text):
        """A name or a refdes of the sheet, as it prints."""
        return f"{self.path}/{text}" if self.route else text

    def labels_of(self, component):
        labels = collections.defaultdict(list)
        for place, pin in enumerate(component.pins):
            if pin.label is not None:
                labels[pin.label].append((self.route, component.key, place))
        return labels

    def below(self, sheets):
        """The instances that the composites of the sheet make."""
        for component in self.sheet.components:
            found = [it for it in component.sources if it in sheets and it not in self.way]
            if component.refdes is None or not found:
                continue
            route, path = (*self.route, component.key), self.under(component.refdes)
            labels = self.labels_of(component)
            for source in found:
                yield Instance(sheets[source], (*self.way, source), route, path, labels)

    def lost(self, sheets):
        """The sources of the sheet that make no instance, where they lead to no sheet or back."""
        for component in self.sheet.components:
            for source in component.sources:
                if source not in sheets:
                    yield "MissingSource", self.name, source
                elif source in self.way and component.refdes is not None:
                    yield "SourceLoop", self.under(component.refdes), source

    def is_listed(self, component):
        is_part = component.refdes is not None and not component.is_annotation
        return is_part and not component.sources and component.refdes not in self.labels

    def flattened(self, drawn):
        """A conductor of the sheet in this instance: a port is tied to the pins above that have its
        label, and a pin of a composite to what is tied to it. A directive is no port."""
        key, component = (self.route, drawn.key, drawn.place), drawn.component
        if component is None:
            return Conductor(key, list(map(self.under, drawn.names)), None, (), None)
        pin = component.pins[drawn.place]
        if component.is_directive:
            return Conductor(key, drawn.names, None, (), pin.kind, is_directive=True)
        ties = [*self.labels.get(component.refdes, ()), *([key] if component.sources else [])]
        is_member = self.is_listed(component)
        member = (self.under(component.refdes), pin.number) if is_member else None
        return Conductor(key, drawn.names, member, ties, pin.kind)

    def hidden_pins(self):
        for component in filter(self.is_listed, self.sheet.components):
            for number, names in component.hidden():
                key, member = (self.route, component.key, 0), (self.under(component.refdes), number)
                yield Conductor(key, names, member, (), "pwr", is_hidden=True)


def instances_of(sheets):
    """The instances of all roots: of the sheets that no component names by `source`."""
    components = (it for sheet in sheets.values() for it in sheet.components)
    named = {source for component in components for source in component.sources}
    weights = {name: sheet.weight() for name, sheet in sheets.items()}
    waiting = [Instance(sheets[name], (name,)) for name in sheets if name not in named]
    found, weight = [], 0
    while waiting:
        instance = waiting.pop()
        found.append(instance)
        weight += weights[instance.name]
        are_many = len(found) > MOST_INSTANCES or weight > MOST_WEIGHT
        if are_many or len(instance.route) > MOST_ROUTE:
            raise Ends(1, "TooManyInstances")
        waiting += instance.below(sheets)
    return found


def groups_of(instances):
    """What touches in each instance, as lists of conductors, and each hidden pin by itself."""
    touching = {}
    for instance in instances:
        if instance.name not in touching:
            touching[instance.name] = instance.sheet.touching()
        for group in touching[instance.name]:
            yield [instance.flattened(drawn) for drawn in group]
        for hidden in instance.hidden_pins():
            yield [hidden]
