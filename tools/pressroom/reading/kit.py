"""Loads pikepdf without its parts for XMP metadata and for its own version, which take a third of the time that a page
of text takes to read. Other modules import pikepdf after that.
"""
import importlib
import sys
import types


def spared(name: str, **values: object) -> types.ModuleType:
    """Returns a module that has these values alone."""
    module = types.ModuleType(name)
    module.__dict__.update(values)
    return module


def load() -> None:
    """Imports pikepdf; as a whole, if it can't be imported without these parts. Its modules have compiled forms of their
    own, unlike pressroom's.
    """
    kept, sys.pycache_prefix = sys.pycache_prefix, None
    metadata = "pikepdf.models.metadata"
    parts = {
        "importlib_metadata": spared("importlib_metadata", version=lambda name: "0"),
        metadata: spared(metadata, PdfMetadata=object, decode_pdf_date=None, encode_pdf_date=None),
    }
    sys.modules.update(parts)
    try:
        importlib.import_module("pikepdf")
    except (ImportError, AttributeError):
        for name in [*parts, *(name for name in sys.modules if name.partition(".")[0] == "pikepdf")]:
            sys.modules.pop(name, None)
        importlib.import_module("pikepdf")
    sys.pycache_prefix = kept
