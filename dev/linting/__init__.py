"""The checks of dev/lint: a module for each, whose `faults()` returns what is wrong."""
