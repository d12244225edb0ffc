"""In what two net lists differ, as contrib/gafd-netdiff tells it, and in what two reports of the
check do."""
import re
from collections import Counter

UNNAMED = re.compile(r"(unnamed_net|unconnected_pin-)[0-9]+")


def masked(text):
    """The lines of a net list: `part` or `net`, the name, which is `*` where it is a number alone,
    and what stands behind it."""
    kind, found = "part", []
    for line in text.splitlines()[1:]:
        name, tab, rest = line.partition("\t")
        if not tab:
            kind = "net"
            continue
        is_unnamed = kind == "net" and UNNAMED.fullmatch(name)
        found.append((kind, "*" if is_unnamed else name, rest))
    return found


def pin_changes(before, after):
    """The pins that a net has now and had not, and those that it had and has not."""
    had, has = before.split(" "), after.split(" ")
    come = [f"+{pin}" for pin in has if pin not in set(had)]
    return " ".join(come + [f"-{pin}" for pin in had if pin not in set(has)])


def net_differences(old, new):
    before, after = Counter(masked(old)), Counter(masked(new))
    gone, come = sorted(before - after), sorted(after - before)
    had = {name: pins for kind, name, pins in gone if kind == "net" and name != "*"}
    both = {name for kind, name, _ in come if kind == "net" and name in had}
    for kind, name, pins in come:
        if kind == "net" and name in both:
            yield f"~ net {name} {pin_changes(had[name], pins)}"
    for sign, lines in (("<", gone), (">", come)):
        for kind, name, rest in lines:
            if kind != "net" or name not in both:
                yield f"{sign} {kind} {name} " + rest.replace("\t", " ")


def net_counts(text):
    """How many parts and nets there are, in words."""
    kinds = Counter(kind for kind, _, _ in masked(text))
    return f"parts {kinds['part']} nets {kinds['net']}"


def findings(text):
    return [line for line in text.splitlines() if line.startswith(("error ", "warning "))]


def finding_differences(old, new):
    before, after = Counter(findings(old)), Counter(findings(new))
    for sign, lines in (("-", before - after), ("+", after - before)):
        yield from (f"{sign} {line}" for line in lines.elements())


def finding_counts(text):
    levels = Counter(line.split(" ")[0] for line in findings(text))
    return f"errors {levels['error']} warnings {levels['warning']}"
