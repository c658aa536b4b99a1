"""The real Rust: where its program is, asking it, and taking its answers apart."""
import os
import re
import subprocess
import sys

NEEDS = """make-vectors: the real Rust is not there. It is looked for, in this order, as
  1. $ORACLE_HOME/native/oracle (without ORACLE_HOME: ~/.cache/seq-oracle/native/oracle);
  2. what $ORACLE_BUILD makes (without it: {tool}).
The second needs rustc, apt-get and dpkg with a Debian mirror, and rt on PATH."""


def find(root):
    """The oracle's program; it is built where it is not there yet."""
    home = os.environ.get("ORACLE_HOME") or os.path.expanduser("~/.cache/seq-oracle")
    program = os.path.join(home, "native", "oracle")
    if os.access(program, os.X_OK):
        return program
    beside = os.path.join(os.path.dirname(root), "shared", "tools", "oracle", "oracle-build")
    tool = os.environ.get("ORACLE_BUILD") or beside
    if not os.access(tool, os.X_OK):
        sys.exit(NEEDS.format(tool="../shared/tools/oracle/oracle-build from the project's folder"))
    made = subprocess.run([tool], stdout=sys.stderr, env=dict(os.environ, ORACLE_HOME=home))
    if made.returncode != 0 or not os.access(program, os.X_OK):
        sys.exit("make-vectors: oracle-build failed")
    return program


class Oracle:
    """Answers a list of commands by a list of lines. Each list is a run of its own."""

    def __init__(self, program):
        self.program = program

    def ask(self, commands):
        commands = list(commands)
        given = "".join(c + "\n" for c in commands)
        ran = subprocess.run([self.program], input=given, stdout=subprocess.PIPE, text=True, check=True)
        answers = ran.stdout.splitlines()
        if len(answers) != len(commands):
            raise ValueError(f"{len(commands)} commands, {len(answers)} answers")
        for command, answer in zip(commands, answers):
            if answer.startswith(("driver:", "unknown command")):
                raise ValueError(f"{answer[:200]} to {command[:200]}")
        return answers


def hexed(data):
    return data.hex() or "-"


def unhexed(text):
    return b"" if text == "-" else bytes.fromhex(text)


def listed(pairs):
    return "".join(f" {seq}:{sec}" for seq, sec in pairs)


class State:
    """What `show` tells of a table."""

    def __init__(self, text):
        words = text.split(" ")
        fields = dict(w.split("=") for w in words[:4])
        self.capacity = int(fields["cap"])
        self.interval = int(fields["int"])
        self.last = None if fields["last"] == "none" else int(fields["last"])
        self.pairs = [tuple(int(x) for x in w.split(":")) for w in words[4:]]
        if len(self.pairs) != int(fields["n"]):
            raise ValueError(text[:200])

    @property
    def seqs(self):
        return [seq for seq, _ in self.pairs]

    @property
    def secs(self):
        return [sec for _, sec in self.pairs]


# The Rust's words for a refusal, the number of the list of refusals (docs/RULES.md), and what group 1 of the words tells beside it.
REFUSALS = [
    (r"Empty buffer", 1, None),
    (r"Unsupported version: (\d+)", 2, int),
    (r"Buffer too small for length", 3, None),
    (r"Expected count first", 4, None),
    (r"Unexpected EOF: first value should be 64 bit", 5, None),
    (r"Unexpected EOF reading prefix", 6, None),
    (r"Unexpected EOF decoding Gorilla prefix", 7, None),
    (r"Unexpected EOF reading (\d+)-bit delta-of-delta", 8, int),
    (r"Expected \d+ (sequence numbers|timestamps), got \d+", 9, ["sequence numbers", "timestamps"].index),
]


def refusal(text):
    """The number of a refused image, and what is told beside it (0 where nothing is)."""
    for words, number, tells in REFUSALS:
        match = re.fullmatch("err " + words, text)
        if match:
            return number, tells(match.group(1)) if tells else 0
    raise ValueError(f"not in the list of refusals: {text[:200]}")


def image_of(text):
    """The bytes of an answer `ok LENGTH HEX`."""
    word, length, data = text.split(" ")
    data = unhexed(data)
    if word != "ok" or len(data) != int(length):
        raise ValueError(text[:200])
    return data


REFUSED = 17


def offered(text):
    """The numbers recorded and skipped, and 17 if the next offer was refused, else 0."""
    match = re.fullmatch(r"(?:refused at (\d+) )?recorded (\d+) skipped (\d+)(?: \((.*)\))?", text)
    if not match:
        raise ValueError(text[:200])
    at, recorded, skipped, why = match.groups()
    recorded, skipped = int(recorded), int(skipped)
    if at is None:
        return recorded, skipped, 0
    if int(at) != recorded + skipped or not why.startswith("Sequence numbers must be monotonic"):
        raise ValueError(text[:200])
    return recorded, skipped, REFUSED
