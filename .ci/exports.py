"""What crates bring out for nobody, for `.ci/repeats`.

An export is a name that lib.rt brings out. It serves nobody where no other crate takes it from this
one, in its code, its tests or its definitions; where it is no law, which is a function without a
body, or one of laws.rt; and where nothing else that the crate brings out shows it, in a signature, a
clause, a field, a variant, or an impl.
"""
import collections
import functools
import pathlib
import re

TOP = pathlib.Path(__file__).resolve().parent.parent
CRATES = TOP / "crates"
BROUGHT_OUT = re.compile(r"^pub use ([^;]+);", re.M)
TAKEN = re.compile(r"\b(\w+)::((?:\w+::)*(?:\w+|\{[^}]*\}|\*))")
# An item begins in the first column, and what an impl has in the fifth.
ITEM = re.compile(r"^(?=(?:pub(?:\(\w+\))? )?(?:const fn|fn|struct|enum|trait|impl|const|type|mod|use|ghost)\b)", re.M)
MEMBER = re.compile(r"^ {4}(?=(?:pub(?:\(\w+\))? )?(?:const fn|fn|const|type|ghost)\b)", re.M)
NAMED = re.compile(r"pub (?:const fn|fn|struct|enum|trait|const|type) (\w+)")
OWNER = re.compile(r"impl(?:<.*?>)? (?:(?P<trait>[\w:]+)(?:<[^{]*?>)? for )?(?P<type>\w+)", re.S)


@functools.cache
def files(crate, pattern):
    """The files of a crate, without comments; each line stays where it is."""
    found = sorted((CRATES / crate).glob(pattern))
    return {path: re.sub(r"(?m)(?://|--).*", "", path.read_text(encoding="utf-8")) for path in found}


@functools.cache
def taken():
    """What crates take from each one: in code as it is imported, in definitions as it is declared."""
    found = collections.defaultdict(set)
    for crate in (path.name for path in CRATES.iterdir()):
        for text in files(crate, "src/**/*.rt").values():
            for other, rest in TAKEN.findall(text):
                if other != crate:
                    found[other] |= set(re.findall(r"\w+|\*", rest))
        for folder in ("specs", "proofs"):
            for text in files(crate, f"{folder}/**/*.antt").values():
                for other, rest in re.findall(r"Rattle\.(\w+)\.specs\.declared\.(\S+(?:\{[^}]*\})?)", text):
                    if other != crate:
                        found[other] |= set(re.findall(r"\w+", rest))
    return found


def brought_out(crate):
    """The names that a crate brings out, each with its line in lib.rt."""
    for path, text in files(crate, "src/lib.rt").items():
        for item in BROUGHT_OUT.finditer(text):
            start, names = item.start(1), item[1]
            if "{" in names:
                start, names = start + names.index("{") + 1, names[names.index("{") + 1 : names.index("}")]
            for name in re.finditer(r"(\w+)\s*(?:,|$)", names):
                yield name[1], f"{path.relative_to(TOP)}:{text.count(chr(10), 0, start + name.start()) + 1}"


def head(function):
    """A function without its body, which stands behind a brace that ends a line."""
    return re.split(r"\{\}?\n", function, maxsplit=1)[0]


def shown(item):
    """What an item shows, with the name that it is of: none where it is inside its crate."""
    if found := NAMED.match(item):
        return found[1], head(item) if re.match(r"pub (?:const )?fn", item) else item
    if not item.startswith("impl"):
        return None, ""
    found = OWNER.match(item)
    parts = MEMBER.split(item)
    if not found["trait"]:
        parts = [it for it in parts[1:] if it.startswith("pub ")]
    return found["type"], "".join(head(it) if re.match(r"(?:pub )?(?:const )?fn\b", it) else it for it in parts)


def is_law(path, item):
    return path.name == "laws.rt" or re.match(r"pub fn", item) and re.search(r"^\{\}$", item, re.M)


def idle(crate):
    """What a crate brings out for nobody: a line each, with the place of it."""
    names = dict(brought_out(crate))
    if "*" in taken()[crate]:
        return
    seen, laws = collections.defaultdict(set), set()
    for path, text in files(crate, "src/**/*.rt").items():
        start = 0
        for item in ITEM.split(text):
            owner, said = shown(item)
            if owner in names:
                for word in set(re.findall(r"\w+", said)):
                    seen[word].add(owner)
                laws |= {owner} if is_law(path, item) else set()
                if NAMED.match(item):
                    names[owner] = f"{path.relative_to(TOP)}:{text.count(chr(10), 0, start) + 1}"
            start += len(item)
    for name, place in names.items():
        if name not in taken()[crate] and name not in laws and not seen[name] - {name}:
            yield f"{place}: {name} of {crate}"
