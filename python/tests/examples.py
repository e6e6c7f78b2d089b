"""The repository's examples, as the tests read them."""
import json
from pathlib import Path
from typing import Any, Iterator, NamedTuple

REPOSITORY = Path(__file__).resolve().parents[2]
EXAMPLES = REPOSITORY / "examples"


class Example(NamedTuple):
    """A script beside a program, and its launch file."""

    name: str
    program: Path
    script: Path
    launch: Path

    def told(self) -> dict[str, Any]:
        return json.loads(self.launch.read_text())

    def stored(self) -> Any:
        """The value in the stored line of its run, None where there is none."""
        result = self.script.with_suffix(".result")
        return json.loads(result.read_text())["value"] if result.exists() else None


def examples() -> Iterator[Example]:
    for script in sorted(EXAMPLES.rglob("*.txt")):
        program, launch = script.parent / "program.lift", script.with_suffix(".json")
        launch = launch if launch.exists() else script.parent / "launch.json"
        if program.exists() and launch.exists():
            yield Example(str(script.relative_to(EXAMPLES)), program, script, launch)
