"""The tests of `draft`."""
