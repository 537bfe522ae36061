"""What all tools have in common: their words, streams, processes, progress, and how they end."""
