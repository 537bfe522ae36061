"""Traces of a VGA's cycles, as emulators log them: into scripts, and against their reports."""
