"""Feeds an adapter's program with mutated scripts and texts, and judges how it ends."""
