"""The version of include/zaklimot.h that this package is written for."""

API_MAJOR, API_MINOR = 1, 6
VERSION = f"{API_MAJOR}.{API_MINOR}"
