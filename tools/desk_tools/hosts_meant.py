"""Which hosts a list of hosts means: of the one host whose file it is, or of all of the desk."""

from collections.abc import Callable
from typing import Any

from desk_tools import machine
from desk_tools.machine import NO_CASE, Host, Triple
from desk_tools.schema import has_form
from desk_tools.sudo_text import shown
from desk_tools.sudoers import Place
from desk_tools.unsaid import Unsaid

Netgroup = Callable[[Place, str], list[Triple]]


class Hosts:
    """The host whose file it is, if it is one's own, and what is known of others."""

    def __init__(self, one: str | None, known: list[Host]) -> None:
        self.one, self.known = one, known

    def names(self, place: Place, item: dict[str, Any], netgroup: Netgroup) -> list[str]:
        """The hosts of the desk that an item stands for."""
        name = item.get("hostname", item.get("hostalias"))
        if name == "ALL":
            return [name]
        if name is not None and has_form(name.lower(), "host"):
            return [name.lower()]
        if "netgroup" in item:
            rows = netgroup(place, item["netgroup"])
            names = [row.host or "ALL" for row in rows if row.host != "-"]
            if names and all(it == "ALL" or has_form(it, "host") for it in names):
                return names
        found = self.listed(item)
        if found is None or not found.sure or set(found.sure) != set(found.perhaps):
            raise Unsaid(place, shown(item), "host")
        return found.sure

    def listed(self, item: dict[str, Any]) -> machine.Meant | None:
        """The known hosts that an address, a network, a whole name or a wildcard stands for."""
        matches = None
        if "networkaddr" in item:
            matches = machine.by_address(item["networkaddr"])
        elif "hostname" in item:
            matches = machine.by_name(item["hostname"].lower())
        if matches is None or not self.known:
            return None
        found = machine.meant(self.known, matches)
        return found if all(has_form(name, "host") for name in found.perhaps) else None

    def is_meant(self, place: Place, item: dict[str, Any], netgroup: Netgroup) -> bool:
        """Whether an item stands for the file's own host."""
        assert self.one is not None
        name = str(item.get("hostname", item.get("hostalias", ""))).lower()
        if name == "all" or name == self.one:
            return True
        if name and "." not in name and machine.WILDCARD.fullmatch(name):
            return machine.matches_form(name, self.one, NO_CASE)
        if "netgroup" in item:
            names = {row.host for row in netgroup(place, item["netgroup"])}
            if not any(it.startswith(f"{self.one}.") for it in names):
                return not names.isdisjoint({self.one, ""})
        found = self.listed(item)
        if found is None or not any(it.short() == self.one for it in self.known):
            raise Unsaid(place, shown(item), "host")
        if (self.one in found.sure) != (self.one in found.perhaps):
            raise Unsaid(place, shown(item), "host")
        return self.one in found.sure
