"""A release: program, library, suite and pages in one archive, the same bytes each time it is made
from a commit."""
