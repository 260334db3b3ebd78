"""Whether a roster admits a message: the codes A1 to A8 (docs/ROSTER.md)."""

from typing import Any

from desk_tools.found import Fault, shown
from desk_tools.message_faults import seconds
from desk_tools.roster_faults import near
from desk_tools.site import Site, command, lies_inside


class Admission:
    def __init__(self, site: Site, value: dict[str, Any], line: int) -> None:
        self.site, self.value, self.line = site, value, line
        self.faults: list[Fault] = []

    def add(self, code: str, key: str, value: Any, said: str) -> None:
        self.faults.append(Fault(self.line, code, key, shown(value), said))

    def look(self) -> list[Fault]:
        value, people = self.value, set(self.site.people)
        for key in ("by", "of"):
            if key in value and value[key] not in people:
                self.add("A1", key, value[key], f"expected a person of the roster: {near(value[key], people)}")
        if value["kind"] == "request":
            self.window()
            ceiling = self.site.ceilings.get(value["ceiling"])
            if ceiling is None:
                self.add("A2", "ceiling", value["ceiling"], f"expected a ceiling of the roster: {near(value['ceiling'], set(self.site.ceilings))}")
            else:
                self.inside(ceiling)
        return self.faults

    def window(self) -> None:
        at, first, last = (self.value[key] for key in ("at", "from", "until"))
        if not at <= first <= last:
            self.add("A8", "at", at, "expected `at` no later than `from`, and `from` no later than `until`")

    def inside(self, ceiling: dict[str, Any]) -> None:
        value = self.value
        if value["by"] in self.site.people and ceiling["ask"] not in self.site.held(value["by"], value["at"][:8]):
            self.add("A3", "by", value["by"], f"expected somebody who holds {ceiling['ask']} on the day of `at`")
        for host in value["hosts"]:
            if host not in ceiling["hosts"]:
                self.add("A4", "hosts", host, f"expected a host of the ceiling: {near(host, set(ceiling['hosts']))}")
        if value["runas"] not in ceiling["runas"]:
            self.add("A5", "runas", value["runas"], f"expected a target of the ceiling: {near(value['runas'], set(ceiling['runas']))}")
        wide = [command(text) for text in ceiling["commands"]]
        for text in value["cmnds"]:
            if not any(lies_inside(command(text), it) for it in wide):
                hint = f" ({text}/ is one: a directory ends in /)" if command(f"{text}/") in wide else ""
                self.add("A6", "cmnds", text, f"expected a command inside one of the ceiling's{hint}: {'; '.join(sorted(set(ceiling['commands']))[:8])}")
        first, last = seconds(value["from"]), seconds(value["until"])
        assert first is not None and last is not None
        if last > first + ceiling["longest"]:
            self.add("A7", "until", value["until"], f"expected a window of up to {ceiling['longest']:,} seconds, and this has {last - first:,}")
