"""The service's two sockets: desk.sock for commands, look.sock for the status and the events. JSON, one object a line.

Who gives a command is said by the kernel: the name of the peer's user. Only the board's user may name another. A client
that reads too slowly is cut off; none can make the service wait.
"""
import grp
import json
import os
import pwd
import selectors
import socket
import struct
from collections.abc import Callable
from typing import Any

MOST_LINE, MOST_BUFFER, MOST_CLIENTS = 65_536, 8_000_000, 200
BOARD = "pressroom-board"
# The sockets with the groups of those who may use them.
GROUPS = {"desk.sock": "pressroom-desk", "look.sock": "pressroom-look"}
NAME = 64
Answer = Callable[["Client", dict[str, Any]], dict[str, Any] | None]


class Client:
    """A connection: what it said so far, what it is to be told, and who it is."""

    def __init__(self, sock: socket.socket, desk: bool):
        self.sock, self.desk = sock, desk
        self.said, self.unsent = b"", b""
        self.follows: int | None = None  # the last event that it was told
        self.edition: str | None = None
        self.user = user_of(sock)

    def tell(self, value: dict[str, Any]) -> None:
        self.unsent += json.dumps(value, ensure_ascii=False).encode() + b"\n"


def user_of(sock: socket.socket) -> str:
    """Returns the name of the user at the other end, by the kernel's word."""
    size = struct.calcsize("3i")
    _, uid, _ = struct.unpack("3i", sock.getsockopt(socket.SOL_SOCKET, socket.SO_PEERCRED, size))
    try:
        return pwd.getpwuid(uid).pw_name
    except KeyError:
        return f"user {uid}"


def who_of(client: Client, message: dict[str, Any]) -> str:
    """Returns in whose name a command is given: the peer's, or that which the board names."""
    named = message.get("user")
    if client.user != BOARD or not isinstance(named, str):
        return client.user
    clean = "".join(sign for sign in named if sign.isprintable())[:NAME]
    return clean or client.user


class Sockets:
    """Listens, reads lines, and writes answers, within the service's one loop."""

    def __init__(self, run: str, selector: selectors.BaseSelector, answer: Answer):
        self.run, self.selector, self.answer = run, selector, answer
        self.clients: dict[int, Client] = {}
        self.listening = {name: listen(os.path.join(run, name), group) for name, group in GROUPS.items()}
        for sock in self.listening.values():
            selector.register(sock, selectors.EVENT_READ, self)

    def heard(self, handle: int, mask: int) -> None:
        """Takes a new client, what one says, or room to write."""
        for name, sock in self.listening.items():
            if sock.fileno() == handle:
                self.accept(sock, name == "desk.sock")
                return
        client = self.clients.get(handle)
        if client is None:
            return
        try:
            if mask & selectors.EVENT_READ:
                self.read(client)
            if handle in self.clients:
                self.flush(client)
        except OSError:
            self.drop(client)

    def accept(self, sock: socket.socket, desk: bool) -> None:
        try:
            peer, _ = sock.accept()
        except OSError:
            return
        if len(self.clients) >= MOST_CLIENTS:
            peer.close()
            return
        peer.setblocking(False)
        client = Client(peer, desk)
        self.clients[peer.fileno()] = client
        self.selector.register(peer, selectors.EVENT_READ, self)

    def read(self, client: Client) -> None:
        data = client.sock.recv(MOST_LINE)
        if not data:
            self.drop(client)
            return
        client.said += data
        while b"\n" in client.said:
            line, _, client.said = client.said.partition(b"\n")
            self.line(client, line)
        if len(client.said) > MOST_LINE:
            self.drop(client)

    def line(self, client: Client, line: bytes) -> None:
        """Answers one line."""
        try:
            message = json.loads(line)
        except (ValueError, RecursionError):
            message = None
        if not isinstance(message, dict):
            client.tell({"status": 2, "text": "not a JSON object on a line"})
            return
        said = self.answer(client, message)
        if said is not None:
            client.tell(said)

    def flush(self, client: Client) -> None:
        """Writes what a client can take now."""
        while client.unsent:
            try:
                sent = client.sock.send(client.unsent[:MOST_LINE])
            except BlockingIOError:
                break
            client.unsent = client.unsent[sent:]
        if len(client.unsent) > MOST_BUFFER:
            self.drop(client)
            return
        events = selectors.EVENT_READ | (selectors.EVENT_WRITE if client.unsent else 0)
        self.selector.modify(client.sock, events, self)

    def drop(self, client: Client) -> None:
        self.clients.pop(client.sock.fileno(), None)
        try:
            self.selector.unregister(client.sock)
        except KeyError:
            pass
        client.sock.close()

    def followers(self) -> list[Client]:
        return [client for client in self.clients.values() if client.follows is not None]

    def flush_all(self) -> None:
        for client in list(self.clients.values()):
            try:
                self.flush(client)
            except OSError:
                self.drop(client)

    def close(self) -> None:
        """Closes all, and removes the names."""
        for client in list(self.clients.values()):
            self.drop(client)
        for name, sock in self.listening.items():
            self.selector.unregister(sock)
            sock.close()
            try:
                os.unlink(os.path.join(self.run, name))
            except OSError:
                pass


def listen(path: str, group: str) -> socket.socket:
    """Listens at a path, for the service's user and a group, where this machine has it.

    Only the service with the journal's lock comes here, so what is there is a dead one's.
    """
    try:
        os.unlink(path)
    except FileNotFoundError:
        pass
    sock = socket.socket(socket.AF_UNIX, socket.SOCK_STREAM)
    sock.setblocking(False)
    sock.bind(path)
    os.chmod(path, 0o660)
    try:
        os.chown(path, -1, grp.getgrnam(group).gr_gid)
    except (KeyError, PermissionError):
        pass  # A trial by hand: only its own user gives commands.
    sock.listen(64)
    return sock


def run_folder(spool: str) -> str:
    """Returns the folder of the sockets: $PRESSROOM_RUN, else /run/pressroom where it is, else SPOOL/run."""
    named = os.environ.get("PRESSROOM_RUN")
    if named:
        return named
    return (
        "/run/pressroom" if os.path.isdir("/run/pressroom") else os.path.join(os.path.abspath(spool), "run")
    )
