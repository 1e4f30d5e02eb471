"""What systemd is told, where it started the service: ready, stopping, and that the loop goes round."""
import os


class Notify:
    """Says nothing where python3-systemd or systemd isn't there."""

    def __init__(self) -> None:
        self.say = None
        if os.environ.get("NOTIFY_SOCKET"):
            try:
                from systemd.daemon import notify  # type: ignore[import]
            except ImportError:
                return
            self.say = notify

    def tell(self, words: str) -> None:
        """Tells systemd something, such as READY=1."""
        if self.say is not None:
            self.say(words)
