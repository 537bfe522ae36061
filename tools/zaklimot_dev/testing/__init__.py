"""The commands that run tests: those of the tools, and the suite with them."""
