"""Tests of the library for C: its header, its names, its answers to misuse and to an allocation
failure, and the suite."""
