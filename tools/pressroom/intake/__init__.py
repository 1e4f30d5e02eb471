"""Pages into files and plans."""
