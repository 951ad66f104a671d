"""What the tests of pages and of the server share, and the parts of contrib/test-server."""
