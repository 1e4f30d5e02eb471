"""pressroom: the programs around plateroom, from the PDFs of a night to verified plates."""

__version__ = "0.2.0"
