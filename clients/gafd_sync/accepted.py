"""The findings that are meant: the file `accepted` of a board's reviews, which contrib/gafd-accepted
reads too (docs/FORMATS.md, "Reviews")."""
import os
import re
import secrets

from .reviews import now

FINDING = re.compile(r"(error|warning) [^ \n].{0,999}")
REASON = re.compile(r".{1,500}")
# What stands above a finding: who accepted it when, and why.
SIGNED = re.compile(r"# (\S+) (\S+Z): (.*)")


def is_line(value, pattern):
    """Whether it is a text of one line, of which nothing is unseen."""
    return type(value) is str and value.isprintable() and pattern.fullmatch(value) is not None


class Accepted:
    """The accepted findings of a folder of reviews. Lines that others wrote there stay."""

    def __init__(self, reviews):
        self.reviews, self.path = reviews, reviews.folder / "accepted"

    def lines(self):
        try:
            # What is no UTF-8 stays as it is.
            with open(self.path, encoding="utf-8", errors="surrogateescape") as file:
                text = file.read()
        except FileNotFoundError:
            text = ""
        return text.removesuffix("\n").split("\n") if text else []

    def listed(self):
        """Each accepted finding once, with who accepted it, when and why, as far as that is told."""
        found, above = {}, ""
        for line in self.lines():
            if is_line(line, FINDING):
                signed = SIGNED.fullmatch(above)
                who, when, why = signed.groups() if signed else ("", "", above.lstrip("# "))
                found.setdefault(line, {"finding": line, "who": who, "time": when, "reason": why})
            above = line if line.startswith("#") and line.isprintable() else ""
        return list(found.values())

    def accept(self, finding, who, reason):
        """Accepts a finding, unless it is already."""
        with self.reviews.alone("accepted.lock"):
            lines = self.lines()
            if finding not in lines:
                self.write([*lines, f"# {who} {now()}: {reason}", finding])

    def take_back(self, finding):
        """Accepts it no longer."""
        with self.reviews.alone("accepted.lock"):
            kept = []
            for line in self.lines():
                if line != finding:
                    kept.append(line)
                elif kept and SIGNED.fullmatch(kept[-1]):
                    kept.pop()
            self.write(kept)

    def write(self, lines):
        """Puts a whole file in place of the one that is there."""
        new = self.path.with_name(f".{secrets.token_hex(8)}.new")
        with open(new, "x", encoding="utf-8", errors="surrogateescape", newline="\n") as file:
            file.writelines(line + "\n" for line in lines)
            file.flush()
            os.fsync(file.fileno())
        os.replace(new, self.path)
