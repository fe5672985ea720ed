"""The parts of dev/test_release."""
