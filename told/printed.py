"""How names and values print, told again: `word` and `flat`."""


def word(text):
    return "".join("_" if c in " \t\r\n" else c for c in text)


def flat(text):
    return "".join(" " if c in "\t\r\n" else c for c in text)
