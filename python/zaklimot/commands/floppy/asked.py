"""The emulators and the video BIOSes that a user may name. Words are read by this before long work
is imported."""

EMULATORS = QEMU, BOCHS, DOSBOX = ("qemu", "bochs", "dosbox")
BIOSES = SEABIOS, LGPL = ("sea", "lgpl")
