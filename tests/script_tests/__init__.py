"""The cases of tests/scripts, by what they try."""
