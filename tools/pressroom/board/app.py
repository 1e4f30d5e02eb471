"""The board's web application: pages of the newest status, pictures, and the forms of actions."""
import re
import threading
import time
from collections.abc import Callable
from typing import Any

import jinja2
from flask import (
    Flask,
    Response,
    abort,
    make_response,
    redirect,
    render_template,
    request,
    send_file,
    url_for,
)
from werkzeug.exceptions import HTTPException

from pressroom.board import view
from pressroom.board.actions import TEXTS, Answers, Guard, Refused, message, told_of
from pressroom.board.link import Link, NoAnswer, Seen
from pressroom.board.pictures import NAMES, Pictures

State = dict[str, Any]
POLICY = (
    "default-src 'none'; style-src 'self'; script-src 'self'; img-src 'self'; connect-src 'self'; "
    "form-action 'self'; base-uri 'none'; frame-ancestors 'none'"
)
HEADERS = {
    "Content-Security-Policy": POLICY,
    "X-Content-Type-Options": "nosniff",
    "X-Frame-Options": "DENY",
    "Referrer-Policy": "same-origin",
    "Cross-Origin-Opener-Policy": "same-origin",
    "Cross-Origin-Resource-Policy": "same-origin",
}
MOST_FORM, PAGES = 16_384, 64
HOSTS = re.compile(r"(127\.0\.0\.1|localhost)(:\d+)?")


class BoardFlask(Flask):
    """Flask whose templates refuse an unknown value, and show no letter that can't be printed."""

    jinja_options = {
        "trim_blocks": True,
        "lstrip_blocks": True,
        "undefined": jinja2.StrictUndefined,
        "finalize": view.plain,
    }


class Board:
    """What the routes share: the link to the service, the pictures, the guard of actions, and pages that are rendered."""

    def __init__(self, link: Link, pictures: Pictures, guard: Guard):
        self.link, self.pictures, self.guard, self.answers = link, pictures, guard, Answers()
        self.pages: dict[tuple[str, ...], tuple[str, str]] = {}
        self.lock = threading.Lock()

    def user(self) -> str | None:
        return self.guard.user(request.headers)

    def acting(self) -> str | None:
        """Returns the user where he may act."""
        user = self.user()
        return user if self.guard.may_act(user) else None

    def stamp(self, seen: Seen, live: bool) -> str:
        """Returns what differs exactly where a page may differ, its clock aside."""
        minute = int(time.time() // 60)
        return f"{seen.stamp}-{minute}-{int(live)}-{self.pictures.count()}-{hash(seen.fault) % 9999}"

    def page(self, name: str, values: Callable[[State], State], **key: str) -> Response:
        """Answers with a page of the newest status, or that nothing has changed since the one that is shown."""
        seen, user = self.link.seen, self.acting()
        if seen.state is None:
            text = f"The service has said nothing yet: {seen.fault or 'it is asked now'}."
            return make_response(render_template("error.html", title="No status", text=text), 503)
        live = seen.is_live(time.time())
        stamp = self.stamp(seen, live)
        where = (name, user or "", *sorted(key.values()))
        told = self.answers.get(request.args.get("told"), self.user())
        tag = f'"{abs(hash((stamp, where, request.args.get("told")))):x}"'
        if request.headers.get("If-None-Match") == tag:
            answer = make_response("", 304)
        else:
            with self.lock:
                kept = self.pages.get(where)
            if kept is None or kept[0] != stamp or told is not None:
                html = self.render(name, seen, live, user, told, values(seen.state))
                if told is None:
                    self.keep(where, stamp, html)
            else:
                html = kept[1]
            answer = make_response(html)
        answer.headers["ETag"] = tag
        answer.headers["X-As-Of"] = view.clock(seen.state["time"], True)
        answer.headers["X-Live"] = str(int(live))
        return answer

    def keep(self, where: tuple[str, ...], stamp: str, html: str) -> None:
        with self.lock:
            if len(self.pages) >= PAGES:
                self.pages.clear()
            self.pages[where] = (stamp, html)

    def render(self, name: str, seen: Seen, live: bool, user: str | None, told: Any, values: State) -> str:
        state = seen.state
        assert state is not None
        shared = {
            "night": state,
            "now": state["time"],
            "live": live,
            "fault": seen.fault,
            "told": told,
            "user": user,
            "token": self.guard.token(user) if user else None,
        }
        return render_template(f"{name}.html", **(shared | values))


def make_app(board: Board) -> Flask:
    """Returns the application."""
    app = BoardFlask(
        "pressroom.board", static_folder="files", static_url_path="/files", template_folder="pages"
    )
    app.config["MAX_CONTENT_LENGTH"] = MOST_FORM
    words = {name: getattr(view, name) for name in dir(view) if not name.startswith("_")}
    app.jinja_env.globals.update(v=words, pictures=board.pictures)
    app.before_request(see_host(board))
    app.after_request(sealed)
    app.register_error_handler(HTTPException, told_error)
    app.register_error_handler(Exception, told_crash)
    add_pages(app, board)
    add_actions(app, board)
    return app


def see_host(board: Board) -> Callable[[], None]:
    """Returns what refuses a request on 127.0.0.1 for another name, as a page that rebinds its own name would send."""

    def see() -> None:
        if not board.guard.trusts and not HOSTS.fullmatch(request.host):
            abort(403, "this board is for 127.0.0.1 alone")

    return see


def sealed(answer: Response) -> Response:
    """Adds the headers that each answer has."""
    answer.headers.update(HEADERS)
    if not request.path.startswith(("/files/", "/plates/")):
        answer.headers["Cache-Control"] = "no-store"
    answer.headers.pop("Server", None)
    return answer


def told_error(error: HTTPException) -> Response:
    """Answers a request that is refused, in a page."""
    title = error.name if error.code != 404 else "Not here"
    page = render_template("error.html", title=title, text=str(error.description))
    return make_response(page, error.code or 500)


def told_crash(error: Exception) -> Response:
    """Answers a request whose page can't be made of the status."""
    text = f"The status can't be shown: {type(error).__name__}: {str(error)[:200]}"
    return make_response(render_template("error.html", title="Fault of the board", text=text), 500)


def add_pages(app: Flask, board: Board) -> None:
    """Adds what is shown."""

    @app.get("/")
    def tonight() -> Response:
        if "wall" in request.args:
            return wall()
        return board.page("tonight", lambda state: {"one": None, "editions": view.order(state["editions"])})

    @app.get("/wall")
    def wall() -> Response:
        return board.page("wall", lambda state: {"editions": view.order(state["editions"])})

    @app.get("/edition/<name>")
    def edition(name: str) -> Response:
        def values(state: State) -> State:
            mine = [one for one in state["editions"] if one["name"] == name]
            if not mine:
                abort(404, f"There is no edition {name} tonight.")
            return {"one": mine[0], "editions": mine}

        return board.page("tonight", values, edition=name)

    @app.get("/pairs")
    def pairs() -> Any:
        state = board.link.seen.state or {"editions": []}
        waiting = [ask for ask in view.asks(state) if ask["pair"] and ask["kind"] == "approve"]
        if waiting:
            return redirect(url_for("pair", edition=waiting[0]["edition"], name=waiting[0]["pair"]), 303)
        for one in view.order(state["editions"]):
            if one["pairs"]:
                return redirect(url_for("pair", edition=one["name"], name=one["pairs"][0]["pair"]), 303)
        return redirect(url_for("tonight"), 303)

    @app.get("/edition/<edition>/pair/<name>")
    def pair(edition: str, name: str) -> Response:
        def values(state: State) -> State:
            found = view.find(state, edition, name)
            if found is None:
                abort(404, f"There is no pair {name} in an edition {edition} tonight.")
            return pair_values(board, *found, request.args.get("site"))

        return board.page("pair", values, edition=edition, pair=name, site=request.args.get("site", ""))

    @app.get("/plates/<sums>/<name>.png")
    def picture(sums: str, name: str) -> Response:
        if not re.fullmatch(r"[0-9a-f]{12}", sums) or name not in NAMES or sums not in board.pictures.made:
            abort(404, "There is no such picture.")
        answer = send_file(board.pictures.path(sums, name), mimetype="image/png", max_age=86_400)
        answer.headers["Cache-Control"] = "private, max-age=86400, immutable"
        return answer


def pair_values(board: Board, edition: State, pair: State, site: str | None) -> State:
    """Returns what the page of a pair shows: its history, its pages, and the plates of the chosen site."""
    groups = view.variants(pair)
    chosen = next((group for group in groups if site in [one["site"] for one in group]), None)
    chosen = chosen or view.that_asks(edition, groups)
    try:
        history, fault = board.link.pair(edition["name"], pair["pair"]), None
    except NoAnswer as no_answer:
        history, fault = None, str(no_answer)
    return {
        "edition": edition,
        "pair": pair,
        "groups": groups,
        "chosen": chosen,
        "pages": view.pages_of(edition, pair),
        "history": history,
        "history_fault": fault,
        "sums": chosen[0]["plates"],
    }


def add_actions(app: Flask, board: Board) -> None:
    """Adds what is done. Each action ends in a page that says what came of it."""

    @app.post("/act/<command>")
    def act(command: str) -> Any:
        if command not in TEXTS:
            abort(404, "There is no such action.")
        form = request.form
        try:
            user = board.guard.check(board.user(), request.headers, form.get("token", ""))
            asked = message(command, form) | {"user": user}
        except Refused as refused:
            abort(403, f"Nothing was done: {refused}.")
        try:
            answer = board.link.command(asked)
        except NoAnswer as no_answer:
            doubt = "whether it was done isn't known; see below what is so"
            answer = {"status": 3, "text": f"{no_answer}: {doubt}"}
        name = board.answers.keep(told_of(user, command, form, answer))
        return redirect(back_to(board, form) + f"?told={name}#told", 303)


def back_to(board: Board, form: Any) -> str:
    """Returns the page from which a form came, by the names in it; the first page where they are none of ours."""
    state = board.link.seen.state or {"editions": []}
    edition, pair = form.get("edition", ""), form.get("pair", "")
    if view.find(state, edition, pair):
        return url_for("pair", edition=edition, name=pair)
    if any(one["name"] == edition for one in state["editions"]):
        return url_for("edition", name=edition)
    return url_for("tonight")
