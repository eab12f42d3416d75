"""The tests of the Python module: `tests/check-python` runs them."""
