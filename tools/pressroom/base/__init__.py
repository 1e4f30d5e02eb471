"""What all commands share: messages, files on the disk, limits, and calls of programs."""
