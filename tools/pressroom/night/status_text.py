"""The status as text for a terminal: the same values as on the board, most urgent first."""
from collections.abc import Sequence
from typing import Any

State = dict[str, Any]
WORDS = {"approval": "waits for approval", "making": "plates are being made"}


def hour(text: str | None) -> str:
    """Returns the hour and minute of an ISO time."""
    return "--:--" if text is None else text[11:16]


def night(state: State) -> str:
    """Returns the status of all its editions."""
    counts, service = state["counts"], state["service"]
    head = f"{hour(state['time'])}  {counts['under_way']} under way, {counts['finished']} finished"
    head += f"; {counts['faults']} faults, {counts['approve']} to approve, {counts['held']} held; service {service['state']}"
    lines = [head]
    lines += [fault(one) for one in state["faults"]]
    for one in state["editions"]:
        lines += ["", *edition(one)]
    return "\n".join(lines)


def edition(one: State) -> list[str]:
    """Returns the lines of an edition."""
    day = f" of {one['date']}" if one["date"] else ""
    lines = [f"{one['name']}{day}: {one['state'].replace('-', ' ')}"]
    lines += [fault(item) for item in one["faults"]] + [ask(item) for item in one["asks"]]
    if one["next"]:
        waits = ", ".join(f"{item['page']} ({item['why']})" for item in one["next"]["waits_for"])
        lines.append(
            f"  next: {one['next']['pair']} must leave for {one['next']['site']} by {hour(one['next']['leave_by'])}"
        )
        lines[-1] += f", waits for {waits}" if waits else ""
    for zone in [None, *one["zones"]]:
        pages = [page for page in one["pages"] if page["zone"] == zone and not page["blank"]]
        if pages:
            lines.append(f"  pages{' of ' + zone if zone else ''}: {grouped(pages)}")
    for site in one["sites"]:
        mine = [
            (pair["pair"], at) for pair in one["pairs"] for at in pair["sites"] if at["site"] == site["name"]
        ]
        link = f" (down since {hour(site['link_since'])})" if site["link"] == "down" else ""
        done = ", complete" if site["name"] in one["complete"] else ""
        lines.append(f"  {site['name']}{link}{done}:")
        lines += [f"    {pair}  {at_site(at)}" for pair, at in mine]
    return lines


def grouped(pages: Sequence[State]) -> str:
    """Returns pages by state, in the order of states."""
    found: dict[str, list[str]] = {}
    for page in pages:
        found.setdefault(page["state"], []).append(page["place"])
    return "; ".join(f"{', '.join(names)} {WORDS.get(state, state)}" for state, names in found.items())


def at_site(at: State) -> str:
    """Returns a pair's state at a site."""
    text = str(at["state"])
    if at["since"]:
        text += f" {hour(at['since'])}"
    if at["version"]:
        text += f", version {at['version']:06}"
    if at["waits_for"]:
        text += " for " + ", ".join(f"{item['page']} ({item['why']})" for item in at["waits_for"])
    if at["there"] and at["there"] != at["version"]:
        text += f"; the site has {at['there']:06}"
    return text + (f"; by {hour(at['leave_by'])}" if at["leave_by"] else "")


def fault(one: State) -> str:
    """Returns a fault with its place and what comes next."""
    about = " ".join(
        part
        for part in (one["page"] or one["pair"], ", ".join(one["sites"]) if not one["page"] else None)
        if part
    )
    about = f"{about}: " if about else ""
    place = f" at {one['place']}" if one["place"] else ""
    file = f" ({one['file']})" if one["file"] else ""
    return f"  ! {about}{one['text']}{place}{file}. {one['next']}"


def ask(one: State) -> str:
    """Returns what waits for a person."""
    if one["kind"] == "approve":
        return f"  ? {one['page']}: waits for approval since {hour(one['since'])}"
    reason = f": {one['reason']}" if one["reason"] else ""
    return f"  ? {one['page']}: held by {one['by']} since {hour(one['since'])}{reason}"


def event(one: State) -> str:
    """Returns an event with its time."""
    about = " ".join(one[key] for key in ("edition", "site", "page", "pair") if one.get(key))
    return (
        f"{one['time'][11:19]}  {about}: {one['text']}" if about else f"{one['time'][11:19]}  {one['text']}"
    )


def pair(state: State) -> str:
    """Returns the history of a pair."""
    lines = [f"{state['edition']} {state['pair']}"]
    for one in state["versions"]:
        pages = ", ".join(f"{page} {content or 'blank'}" for page, content in one["pages"].items())
        lines.append(
            f"  version {one['version']:06} {one['site']}: {one['state']} {hour(one['at'])}; {pages}"
        )
    lines += [
        f"  {hour(step['time'])}  {(step['site'] or '') + ' ' if step['site'] else ''}{step['text']}"
        for step in state["steps"]
    ]
    return "\n".join(lines)
