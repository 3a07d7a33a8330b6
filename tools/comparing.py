"""What the tools share that ask the program and a reader from elsewhere the same random texts."""
import argparse
import collections
import pathlib
import random
import subprocess

PROGRAM = pathlib.Path(__file__).resolve().parent.parent / "timeforms"
LIKE, REFUSED, HERE, THERE, DIFFERENT = "read alike", "refused by both", "read here alone", "read there alone", "DIFFERENT"


def arguments(doc, **words):
    """The words behind a tool's name, first those that are one of some, and random numbers by its seed. The description is `doc`."""
    parser = argparse.ArgumentParser(description=doc, formatter_class=argparse.RawDescriptionHelpFormatter)
    for word, choices in words.items():
        parser.add_argument(word, choices=choices)
    parser.add_argument("--count", type=int, default=100_000)
    parser.add_argument("--seed", type=int, default=1)
    parser.add_argument("program", nargs="?", default=PROGRAM, metavar="PROGRAM")
    found = parser.parse_intermixed_args()
    random.seed(found.seed)
    return found


def replies(lines, program):
    """The program's reply to each line."""
    ran = subprocess.run([program], input="".join(f"{line}\n" for line in lines).encode(), stdout=subprocess.PIPE, check=True)
    return ran.stdout.decode().split("\n")[:-1]


def server(script):
    """The lines that the PostgreSQL server which `psql` reaches writes for a script."""
    ran = subprocess.run(["psql", "-XAtq", "-v", "ON_ERROR_STOP=1"], input=script, stdout=subprocess.PIPE, text=True, check=True)
    return ran.stdout.split("\n")[:-1]


def chance(part):
    return random.random() < part


def digits(count):
    return "".join(random.choice("0123456789") for _ in range(count))


def field(least, most, width=2):
    """A number of so many digits within the bounds, or one past them now and then."""
    past = [most + 1] + [least - 1] * (least > 0)
    return f"{random.choice(past) if chance(0.04) else random.randint(least, most):0{width}}"


def changed(text, letters):
    """The text, or once in eight one with a byte changed, put in or left out."""
    if not chance(0.125):
        return text
    at, letter = random.randint(0, len(text)), random.choice(letters)
    return random.choice([text[:at] + text[at + 1 :], text[:at] + letter + text[at:], text[:at] + letter + text[at + 1 :]])


def compared(reply, value):
    """How a reply stands to what the other reader makes of the text, which is None where it refuses it."""
    if reply.startswith("refused"):
        return REFUSED if value is None else THERE
    if value is None:
        return HERE
    return LIKE if reply == value else DIFFERENT


class Tally:
    """How often each thing was found, and whether any of it is a fault."""

    def __init__(self):
        self.counts = collections.Counter()

    def note(self, what, found):
        self.counts[what, found] += 1

    def fault(self, what, text):
        """Counts a fault and prints it."""
        self.counts[what, DIFFERENT] += 1
        print(text)

    def expect(self, what, asked, reply, wanted, found="as wanted"):
        """Counts a reply, which is a fault where it isn't the wanted one."""
        if reply == wanted:
            self.note(what, found)
        else:
            self.fault(what, f"{asked}: {reply}, and not {wanted}")

    def read(self, what, text, reply, value, foreseen=False):
        """Counts how a reply stands to what the other reader makes of the text. Two values are a fault, unless that was foreseen."""
        found = compared(reply, value)
        if found == DIFFERENT and foreseen:
            self.note(what, "different as foreseen")
        elif found == DIFFERENT:
            self.fault(what, f"{what} {text!r} is {reply} here, and {value} there")
        else:
            self.note(what, found)

    def told(self):
        """Prints the counts; whether there was a fault."""
        for (what, found), count in sorted(self.counts.items()):
            print(f"{what}: {count} {found}")
        return any(found == DIFFERENT for _, found in self.counts)
