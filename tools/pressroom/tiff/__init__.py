"""TIFF files, strip by strip."""
