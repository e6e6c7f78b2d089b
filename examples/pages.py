"""What the pages say of the examples: the rules of docs/RULES.md, the blocks of docs/STRATEGIES.md.

A block of STRATEGIES that begins with three back quotes, a word and a file shows that file, and one
whose word is `nest` the loop nest of that kernel, as tools/nest.py prints it. `FOLDER/NAME`: E
events, R releases tells the counts of NAME.result.

Each rule has to stand in some script of an example.
"""
import json
import re
import sys
from pathlib import Path

EXAMPLES = Path(__file__).resolve().parent
TOP = EXAMPLES.parent
sys.path.insert(0, str(TOP / "tools"))
from nest import nest
from rules import rules


def page(name):
    return (TOP / "docs" / name).read_text()


def rules_of(script):
    """The rules of a script."""
    lines = map(str.split, script.read_text().splitlines())
    return {words[2] for words in lines if words[:1] == ["at"]}


def commands(script):
    """The commands that write and run what a script makes: of one kernel, or of several in order."""
    return ("stages", "run-stages") if "then" in rules_of(script) else ("compile", "run")


def rules_used():
    """The rules of the examples' scripts."""
    return set().union(*map(rules_of, EXAMPLES.glob("*/*.txt")))


def rules_otherwise():
    """The rules that stand in no script, and those of scripts that the page doesn't name."""
    named, used = rules(), rules_used()
    unknown = sorted(used.difference(named))
    return [it for it in named if it not in used], unknown


def shown():
    """The blocks of STRATEGIES that show a file: its word, its name and its text."""
    return re.findall(r"^```(\w+) (\S+)\n(.*?)^```$", page("STRATEGIES.md"), re.M | re.S)


def counted():
    """The counts that STRATEGIES tells: of which script, events and releases."""
    told = re.findall(r"`(\w+/\w+)`: ([\d,]+) events, ([\d,]+) release", page("STRATEGIES.md"))
    return [(script, *(int(it.replace(",", "")) for it in counts)) for script, *counts in told]


def file_otherwise(word, name, text):
    """Whether a block isn't what its file has."""
    file = TOP / name
    there = file.read_text() if file.exists() else ""
    return (nest(there) if word == "nest" else there) != text


def counts_otherwise(script, *counts):
    """Whether counts aren't those of the stored result line."""
    line = json.loads((EXAMPLES / f"{script}.result").read_text())
    return (line["events"], line["releases"]) != counts


def shown_otherwise():
    """The files that STRATEGIES shows otherwise than they are."""
    wrong = [block[1] for block in shown() if file_otherwise(*block)]
    return wrong + [f"examples/{it[0]}.result" for it in counted() if counts_otherwise(*it)]
