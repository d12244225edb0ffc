"""Random folders for the SPICE text: `random_spice`. In most of them most cards are in order."""
import random

from drawing import VERSION, embedded, pin, wire
from random_projects import random_folder, with_option
from spice_rules import PINS

LETTERS = "RRRRCCCLVIDQMXxrrcqmUJ"
NAMES = ["GND", "gnd", "Gnd", "out", "in 1", "unnamed_net1"]
VALUES = ["1k", "DC 5", "a\tb", "10k 1%", "*", "a\nb"]


def numbers_of(rng, letter):
    """Pin numbers: mostly those of the letter, in any order."""
    count = PINS.get(letter.upper(), rng.randrange(4))
    count = count if rng.random() < 0.985 else rng.choice([0, 1, 2, 3, 5])
    numbers = [str(number) for number in range(1, count + 1)]
    if numbers and rng.random() < 0.01:
        numbers[rng.randrange(count)] = rng.choice(["0", "01", "a", "1", str(count + 1)])
    return rng.sample(numbers, count)


def refdes_of(rng, letter, number):
    """Mostly one that no other has; others meet as one package, in case, odd bytes and pieces."""
    if rng.random() < 0.93:
        return f"{letter}{number}"
    near = rng.randrange(1, number + 1)
    return rng.choice([*[f"{letter}{near}", f"{letter}{near}".swapcase(), f"{letter}1"] * 4,
                       f"{letter}/1", f"{letter}_1", f"{letter}-1", f"a/{letter}1", f"b/{letter}1",
                       f"{letter}1_a", f"{letter}é", f"{letter}1/", f"/{letter}1"])


def values_of(rng):
    value = [f"value={rng.choice(VALUES)}"] * rng.choice([1, 1, 1, 0])
    device = ["device=some device"] * rng.choice([1, 1, 0])
    return value + device or ["value=1"] * (rng.random() < 0.95)


def part(rng, x, number):
    """A part whose pins stand in a row."""
    letter = rng.choice(LETTERS)
    numbers = numbers_of(rng, letter)
    pins = [pin(x, 100 * row, f"pinnumber={it}") for row, it in enumerate(numbers)]
    attached = [f"refdes={refdes_of(rng, letter, number)}", *values_of(rng)]
    if numbers and rng.random() < 0.2:
        attached.append(f"net={rng.choice(NAMES)}:{rng.choice(numbers)}")
    return embedded("part.sym", pins, *attached)


def sheet(rng):
    """Parts side by side, and wires between their pins."""
    count = rng.choice([1, 2, 3, 5, 8, 13])
    text = VERSION + "".join(part(rng, 1000 * at, at + 1) for at in range(count))
    for _ in range(rng.randrange(2 * count)):
        ends = [(1000 * rng.randrange(count), 100 * rng.randrange(4)) for _ in range(2)]
        text += wire(*ends[0], *ends[1], *rng.choice([[]] * 4 + [[rng.choice(NAMES)]]))
    return text.encode()


def random_spice(seed, number):
    """A folder, and the words of its runs, all with the form."""
    rng = random.Random(f"spice {seed} {number}")
    if rng.random() < 0.3:
        files, runs = random_folder(seed, number)
    else:
        files = {f"s{at}.sch": sheet(rng) for at in range(10)}
        runs = [[name] for name in files]
    return files, [with_option(rng, words, "form", "spice") for words in runs]
