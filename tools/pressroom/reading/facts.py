"""Follows all objects that the first page refers to, and removes the profiles of grey and CMYK.

The tests for transparency, overprint and spots are conservative: false alarms are possible, misses are not.
"""
from dataclasses import dataclass, field

import pikepdf

from pressroom.reading.objects import get, identity, is_array, is_dictionary, is_stream, items, name, number
from pressroom.reading.spaces import space_of, untagged

# Keys that lead away from what the page shows.
AWAY = {
    b"/Parent", b"/P", b"/Metadata", b"/PieceInfo", b"/Thumb", b"/B", b"/Dest", b"/A", b"/AA", b"/Popup", b"/IRT",
    b"/StructParents", b"/StructParent", b"/FontDescriptor", b"/ToUnicode", b"/Widths", b"/W", b"/DescendantFonts",
    b"/Encoding", b"/Differences",
}  # fmt: skip
# Keys of dictionaries whose own keys, or whose values' keys, are names of the file's own.
NAMED = {b"/Resources": 2, b"/AP": 2, b"/CharProcs": 1}
# Keys of transparency, and their values for opaque objects.
OPAQUE: dict[bytes, tuple[object, ...]] = {
    b"/SMask": (b"/None",),
    b"/BM": (b"/Normal", b"/Compatible"),
    b"/ca": (1,),
    b"/CA": (1,),
    b"/SMaskInData": (0,),
}
INKS = {b"/Cyan", b"/Magenta", b"/Yellow", b"/Black", b"/None"}


@dataclass
class Facts:
    """What the objects of a page have: transparency, overprint, transfer functions, the names of spots and of the
    separation All, groups that blend in RGB, groups that blend otherwise than in CMYK, whether a picture has alternates,
    whether a table has tints of colorants, what mutool can't show, whether an object refers to itself, and whether an
    object was changed.
    """

    blends: bool = False
    overprints: bool = False
    transfers: bool = False
    rgb_groups: bool = False
    other_groups: bool = False
    alternates: bool = False
    indexed: bool = False
    circular: bool = False
    changed: bool = False
    spots: set[bytes] = field(default_factory=set)
    unlike: set[str] = field(default_factory=set)
    masks: set[object] = field(default_factory=set)
    groups: list[tuple[object, str]] = field(default_factory=list)


def facts_of(page: pikepdf.Object) -> Facts:
    """Follows the page's objects, each once. Removes profiles from them."""
    facts = Facts()
    entered: set[object] = set()
    done: set[object] = set()
    stack: list[tuple[pikepdf.Object, bool, int]] = [(page, False, 0)]
    while stack:
        value, leaves, named = stack.pop()
        mark = identity(value)
        if leaves:
            entered.discard(mark)
            done.add(mark)
            continue
        if mark is not None:
            if mark in entered:
                facts.circular = True
            if mark in entered or mark in done:
                continue
            entered.add(mark)
            stack.append((value, True, 0))
        if is_array(value):
            stack += [(item, False, 0) for item in in_array(value, facts)]
        else:
            stack += [
                (item, False, level) for item, level in in_dictionary(value, facts, value is page, named)
            ]
    kinds = {kind for mark, kind in facts.groups if mark is None or mark not in facts.masks}
    facts.rgb_groups, facts.other_groups = "rgb" in kinds, bool(kinds - {"cmyk", ""})
    return facts


def in_array(value: pikepdf.Object, facts: Facts) -> list[pikepdf.Object]:
    """Looks at an array. Returns the arrays and dictionaries within it."""
    if len(value) and name(value[0]) in (b"/Separation", b"/DeviceN") and len(value) > 1:
        second = value[1]
        names = list(second) if is_array(second) else [second]
        facts.spots |= {name(item) for item in names} - INKS - {b""}
        if name(second) == b"/None":
            facts.unlike.add("the separation None")
    if len(value) > 1 and name(value[0]) == b"/Indexed":
        facts.indexed |= space_of(value[1]).kind == "other"
    found = []
    for place in range(len(value)):
        item = value[place]
        if not isinstance(item, pikepdf.Object):
            continue
        plain = untagged(item)
        if plain is not None:
            value[place] = plain
            facts.changed = True
        elif is_array(item) or is_dictionary(item):
            found.append(item)
    return found


def in_dictionary(
    value: pikepdf.Object, facts: Facts, is_page: bool, named: int
) -> list[tuple[pikepdf.Object, int]]:
    """Looks at a dictionary or a stream. Returns the arrays and dictionaries within it, each with how many levels
    below it have keys that are names of the file's own.
    """
    found = []
    for key, item in list(items(value)):
        if key in AWAY and named != 1:
            continue
        plain = untagged(item)
        if key in (b"/DefaultGray", b"/DefaultCMYK"):
            del value[key]
            facts.changed = True
        elif plain is not None:
            value[key] = plain
            facts.changed = True
        elif is_array(item) or is_dictionary(item):
            level = (
                0 if is_stream(item) else named - 1 if named > 1 else NAMED.get(key, 0) if not named else 0
            )
            found.append((item, level))
        see_key(value, key, item, facts, is_page)
    return found


def see_key(holder: pikepdf.Object, key: bytes, value: object, facts: Facts, is_page: bool) -> None:
    """Notes what a key says of transparency, overprint, transfer functions, groups and masks."""
    if key == b"/Group":
        facts.blends |= not is_page
        space = get(value, b"/CS")
        facts.groups.append((identity(holder), "" if space is None else space_of(space).kind))
    elif key in OPAQUE:
        word = name(value) or number(value)
        facts.blends |= word not in OPAQUE[key]
    elif key == b"/Alternates":
        facts.alternates = True
    elif key in (b"/OP", b"/op"):
        facts.overprints |= value is not False
    elif key in (b"/TR", b"/TR2", b"/TransferFunction"):
        is_used = name(value) not in (b"/Identity", b"/Default")
        facts.transfers |= is_used
        if is_used and is_stream(get(holder, b"/G")):
            facts.unlike.add("a soft mask with a transfer function")
    elif key == b"/G" and is_stream(value) and name(get(holder, b"/S")) in (b"/Luminosity", b"/Alpha"):
        facts.masks.add(identity(value))
