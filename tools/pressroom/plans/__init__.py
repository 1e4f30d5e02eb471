"""Plans: written, read, checked, and cut into parts."""
