"""The parts of tsumego-server."""
