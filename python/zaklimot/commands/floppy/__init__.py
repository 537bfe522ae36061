"""Scripts on machines of their own: a floppy that runs one, the answers that come back, and
emulators that boot it."""
