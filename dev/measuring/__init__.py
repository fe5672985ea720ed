"""The parts of dev/measure: a module for each, whose docstring is its help."""
