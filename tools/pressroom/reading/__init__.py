"""Reads the first page of a PDF in a process of its own: what it shows, and an edited copy that is rendered."""
