"""Tests of tools/pinball-help that are long or slow, by what they test. dev/test_help runs them with its own."""
