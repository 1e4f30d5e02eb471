"""The names of separations, and how the page of sampled tints is laid out."""
import unicodedata

# Process colorants, and names that aren't spots.
PROCESS = (b"Cyan", b"Magenta", b"Yellow", b"Black")
ALL, NONE = b"All", b"None"
# The tints of each spot that are sampled. Squares in a row of the page of samples, and their side in points.
TINTS, COLUMNS, SIDE = 256, 128, 3


def text_of(name: bytes) -> str:
    """Returns a name in either encoding that PDFs use."""
    try:
        return name.decode("utf-8")
    except UnicodeDecodeError:
        return name.decode("latin-1")


def name_key(name: bytes) -> str:
    """Returns a separation's name without regard to its encoding, its case, and blanks at its ends."""
    return unicodedata.normalize("NFC", text_of(name)).strip(" \t\r\n\f\0\xa0").casefold()


def is_spot(name: bytes) -> bool:
    """Returns whether a colorant is a spot: neither one of the four inks nor All or None."""
    return name not in (*PROCESS, ALL, NONE)
