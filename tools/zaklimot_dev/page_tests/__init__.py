"""Tests of the page: its module, the page as built, the suite through the module, and the page's
scripts."""
