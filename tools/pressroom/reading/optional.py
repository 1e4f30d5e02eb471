"""Which optional content prints: ISO 32000-1, 8.11.

The states are those of the default configuration, and those that it sets for the event Print.
"""
import pikepdf

from pressroom.reading.objects import get, identity, is_array, is_dictionary, name

USAGE = {b"/Print": b"/PrintState", b"/View": b"/ViewState", b"/Export": b"/ExportState"}
MOST_DEPTH = 32


class Optional:
    """The states of a PDF's optional content groups."""

    def __init__(self, root: pikepdf.Object) -> None:
        self.states: dict[tuple[int, int] | None, bool] = {}
        self.intents: set[bytes] = set()
        properties = get(root, b"/OCProperties")
        self.exists = is_dictionary(properties)
        default = get(properties, b"/D")
        self.base = name(get(default, b"/BaseState")) != b"/OFF"
        self.intents = intents(default)
        for key, state in ((b"/ON", True), (b"/OFF", False)):
            for group in listed(get(default, key)):
                self.states[identity(group)] = state
        for usage in listed(get(default, b"/AS")):
            if name(get(usage, b"/Event")) == b"/Print":
                self.see_usage(usage)

    def see_usage(self, usage: object) -> None:
        """Sets the states that groups have for an event."""
        for group in listed(get(usage, b"/OCGs")):
            states = [
                name(get(get(get(group, b"/Usage"), name(category)), USAGE[name(category)]))
                for category in listed(get(usage, b"/Category"))
                if name(category) in USAGE
            ]
            if b"/OFF" in states:
                self.states[identity(group)] = False
            elif b"/ON" in states:
                self.states[identity(group)] = True

    def shows(self, group: object) -> bool:
        """Returns whether content of this group, or of these groups, prints."""
        if not is_dictionary(group):
            return True
        if name(get(group, b"/Type")) != b"/OCMD":
            counts = b"/All" in self.intents or self.intents & intents(group)
            return self.states.get(identity(group), self.base) if counts else True
        expression = get(group, b"/VE")
        if is_array(expression):
            return self.holds(expression, 0)
        members = get(group, b"/OCGs")
        groups: list[object] = [*listed(members)] if is_array(members) else [members]
        states = [
            self.shows(item)
            for item in groups
            if is_dictionary(item) and name(get(item, b"/Type")) != b"/OCMD"
        ]
        if not states:
            return True
        policy = name(get(group, b"/P"))
        return {
            b"/AllOn": all(states),
            b"/AnyOff": not all(states),
            b"/AllOff": not any(states),
        }.get(policy, any(states))

    def holds(self, expression: object, depth: int) -> bool:
        """Returns whether a visibility expression is true."""
        if not is_array(expression):
            return self.shows(expression)
        parts = listed(expression)
        if not parts or depth > MOST_DEPTH:
            return True
        values = [self.holds(part, depth + 1) for part in parts[1:]]
        kind = name(parts[0])
        if kind == b"/Not":
            return not values[0] if values else True
        return all(values) if kind == b"/And" else any(values) if values else True


def intents(holder: object) -> set[bytes]:
    """Returns the intents of a group or a configuration. Groups of other intents than the configuration's show."""
    value = get(holder, b"/Intent")
    return {name(item) for item in listed(value)} if is_array(value) else {name(value) or b"/View"}


def listed(value: object) -> list[pikepdf.Object]:
    """Returns the items of an array; nothing if the value is anything else."""
    return list(value) if isinstance(value, pikepdf.Array) else []
