"""Tests with emulators: what needs packages that the gate doesn't."""
