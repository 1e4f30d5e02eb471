"""The resources of one content stream, and what changes in them: ISO 32000-1, 7.8.3."""
import pikepdf

from pressroom.reading.objects import Unreadable, copied, get, identity, is_dictionary, items, shown


class Resources:
    """The resources that a content stream names. `where` names the stream in messages."""

    def __init__(self, value: object, where: str) -> None:
        self.value, self.where = value, where
        self.changes: dict[bytes, dict[bytes, pikepdf.Object]] = {}
        self.used: dict[bytes, set[bytes]] = {}

    def find(self, category: bytes, word: bytes) -> pikepdf.Object | None:
        """Returns a resource, or None."""
        self.used.setdefault(category, set()).add(word)
        return get(get(self.value, category), word)

    def needed(self, category: bytes, word: bytes, what: str) -> pikepdf.Object:
        """Returns a resource. Refuses the page if there is none."""
        found = self.find(category, word)
        if found is None:
            named = f"{what} {shown(word)}" if word else f"{what} without a name"
            raise Unreadable("damaged", f"damaged: {named} isn't in {self.where}'s resources")
        return found

    def change(self, category: bytes, word: bytes, old: object, new: pikepdf.Object) -> None:
        """Puts another object in the place of a resource, unless it's the same."""
        mark = identity(new)
        if new is not old and (mark is None or mark != identity(old)):
            self.changes.setdefault(category, {})[word] = new

    def added(self, category: bytes, value: pikepdf.Object) -> bytes:
        """Adds a resource, and returns its name."""
        holder = get(self.value, category)
        for word, known in self.changes.get(category, {}).items():
            if known is value:
                return word
        mark = identity(value)
        for word, known in items(holder):
            if mark is not None and identity(known) == mark:
                return word
        number = 0
        while get(holder, word := b"/Own%d" % number) is not None or word in self.changes.get(category, {}):
            number += 1
        self.changes.setdefault(category, {})[word] = value
        self.used.setdefault(category, set()).add(word)
        return word

    def made(self, prune: bool) -> pikepdf.Object | None:
        """Returns the resources as a new dictionary, or None if nothing changed. With `prune` it has only those that
        the stream names.
        """
        if not self.changes and not prune:
            return None
        made = copied(self.value) if is_dictionary(self.value) else pikepdf.Dictionary()
        for category in {*self.changes, *([key for key, _ in items(made)] if prune else [])}:
            old = get(made, category)
            if not is_dictionary(old) and category not in self.changes:
                continue
            part = pikepdf.Dictionary()
            for word, value in items(old):
                if not prune or word in self.used.get(category, set()) or category in KEPT:
                    part[word] = value
            for word, value in self.changes.get(category, {}).items():
                part[word] = value
            made[category] = part
        return made


# Categories whose names aren't looked up while a stream is read.
KEPT = {b"/ColorSpace", b"/Properties"}
