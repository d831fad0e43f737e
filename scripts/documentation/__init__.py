"""Reads the sources, and writes what documents them."""
