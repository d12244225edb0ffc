"""The rules for a project of sheets and symbols, told again: what `netlist` answers.

It shares no code with the program. What a component has stands in component_rules.py, and which
sheets there are and how often in hierarchy_rules.py. Names of files are texts, and so are values;
all orders are those of code points, which is that of the bytes of UTF-8.
"""
import collections
import itertools

from hierarchy_rules import NAME, Ends, gathered, groups_of, instances_of
from printed import flat, word

VALUES = ("device", "value", "footprint")


def nets_of(groups):
    """Groups of conductors, joined where they have a name in common or a port ties them."""
    having = collections.defaultdict(list)
    for group in groups:
        for link in {link for conductor in group for link in (*conductor.names, *conductor.ties)}:
            having[link].append(group)
    taken = set()
    for group in groups:
        net, found = [], [group]
        while found:
            some = found.pop()
            if id(some) in taken:
                continue
            taken.add(id(some))
            net += some
            for conductor in some:
                for link in (*conductor.names, *conductor.ties):
                    found += having.pop(link, [])
        if net:
            yield net


class Net:
    """Conductors that are joined, their names, and the pins of listed parts among them, in order.
    `name` is what it prints under; one without names gets its number later."""

    def __init__(self, conductors):
        self.conductors = conductors
        self.names = {name for it in conductors for name in it.names}
        self.pins = sorted((*it.member, *it.key) for it in conductors if it.member)
        self.is_unconnected = not self.names and len(conductors) == 1
        self.has_directive = any(it.is_directive for it in conductors)
        self.name = min(self.names, key=lambda name: (name.count("/"), name), default=None)

    def is_global(self):
        """Whether a name comes by a value of `net`: all names of pins do."""
        return any(it.names and it.kind is not None for it in self.conductors)

    def members(self):
        """The members in order, with their kinds: those of their first drawn pins, else pwr."""
        kinds = {}
        for it in sorted(self.conductors, key=lambda it: (it.is_hidden, it.key)):
            if it.member:
                kinds.setdefault(it.member, it.kind)
        return dict(sorted(kinds.items()))


def numbered(start, nets, names):
    """Nets without a name, by their least pins, under the numbers that are free."""
    free = (f"{start}{k}" for k in itertools.count(1) if f"{start}{k}" not in names)
    nets = sorted(nets, key=lambda net: net.pins)
    for net, name in zip(nets, free):
        net.name = name
    return nets


def listed_nets(groups):
    """The nets with members, in the order of the list."""
    nets = [net for net in map(Net, nets_of(groups)) if net.pins]
    names = {name for group in groups for conductor in group for name in conductor.names}
    named = sorted((net for net in nets if net.names), key=lambda net: net.name)
    others = [net for net in nets if not net.names and not net.is_unconnected]
    unnamed = numbered("unnamed_net", others, names)
    unconnected = [net for net in nets if net.is_unconnected]
    return named + unnamed + numbered("unconnected_pin-", unconnected, names)


def listed_parts(instances):
    """The listed parts with their printed refdes, by route and id."""
    listed = [
        (instance.route, component.key, instance.under(component.refdes), component)
        for instance in instances
        for component in filter(instance.is_listed, instance.sheet.components)
    ]
    return [it[2:] for it in sorted(listed, key=lambda it: it[:2])]


def packages_of(instances):
    """The values of each package by its printed refdes: those of its first component that has
    one."""
    packages = {}
    for refdes, component in listed_parts(instances):
        package = packages.setdefault(refdes, {})
        for name in VALUES:
            if component.values(name):
                package.setdefault(name, component.value(name))
    return packages


def members_of(net):
    return [word(f"{refdes}-{number}") for refdes, number in net.members()]


def net_line(net):
    return f"{word(net.name)}\t{' '.join(members_of(net))}"


def list_lines(packages, nets):
    yield f"parts {len(packages)}"
    for refdes, package in packages:
        values = [flat(package.get(name, "-")) for name in VALUES]
        yield "\t".join([word(refdes), *values])
    yield f"nets {len(nets)}"
    yield from map(net_line, nets)


def joined(nets):
    return [net for net in nets if not net.is_unconnected]


def tango_lines(packages, nets):
    for refdes, package in packages:
        values = [flat(package.get(name, "unknown")) for name in ("footprint", "device", "value")]
        yield from ["[", word(refdes), *values, "]"]
    for net in joined(nets):
        yield from ["(", word(net.name), *members_of(net), ")"]


def quoted(field):
    """A field of CSV."""
    doubled = field.replace('"', '""')
    return f'"{doubled}"' if any(it in field for it in ',"\r\n') else field


def bill_lines(packages, _):
    groups = {}
    for refdes, package in packages:
        groups.setdefault(tuple(package.get(name, "") for name in VALUES), []).append(refdes)
    yield ",".join([*VALUES, "refdes", "count"])
    for values, some in groups.items():
        fields = [*map(flat, values), " ".join(map(word, some)), str(len(some))]
        yield ",".join(map(quoted, fields))


FORMS = {
    "list": list_lines,
    "tango": tango_lines,
    "pcb": lambda _, nets: map(net_line, joined(nets)),
    "bom": bill_lines,
}


def net_text(form, instances):
    packages = sorted(packages_of(instances).items())
    nets = listed_nets(list(groups_of(instances)))
    return "".join(f"{line}\n" for line in FORMS[form](packages, nets))


def asked_of(words, option):
    """The values of an option, at most one, and the sheets that words ask for."""
    values, names, words = [], [], list(words)
    while words:
        it = words.pop(0)
        if it == "--":
            names, words = names + words, []
        elif it == f"--{option}" and words and not words[0].startswith("-"):
            values.append(words.pop(0))
        elif it.startswith(f"--{option}="):
            values.append(it.removeprefix(f"--{option}="))
        elif it.startswith("-"):
            raise Ends(2, "usage")
        else:
            names.append(it)
    are_names = all(map(NAME.fullmatch, names))
    if not names or not are_names or len(set(names)) < len(names) or len(values) > 1:
        raise Ends(2, "usage")
    return values, names


def netlist(files, words):
    forms, names = asked_of(words, "form")
    if not set(forms) <= FORMS.keys():
        raise Ends(2, "usage")
    return net_text((forms or ["list"])[0], instances_of(gathered(files, names).sheets))


def answer_of(files, words):
    """What `netlist` answers for words in a folder of these files: status, what goes out, and the
    error line. One text stands for one word."""
    try:
        return 0, netlist(files, [words] if isinstance(words, str) else words).encode(), b""
    except Ends as ends:
        return ends.status, b"", f"gafd: {ends.said}\n".encode()
