"""Tests of the machine that runs software in the page."""
