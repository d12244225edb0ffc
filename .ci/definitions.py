"""What a line of a file of definitions defines, for who lists definitions."""
import re

DEFINITION = re.compile(
    r"(?:(?:abbrev|unfoldable|opaque) )*pub (?!mod )(?:record |data )?(◌\S+◌|[\w'-]+)"
)
