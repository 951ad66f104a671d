"""The page to ask in a browser: one text that holds all that it needs."""

import base64
import hashlib
import os
import re

from .programs import CONTRIB

PARTS = os.path.join(CONTRIB, "page")


def part(name):
    with open(os.path.join(PARTS, name), encoding="utf-8") as file:
        return file.read().rstrip("\n")


def policy(text):
    """What the page may do: run its own scripts, look as it says, and ask the server that it came from."""

    def hashes(name):
        found = re.findall(rf"<{name}>(.*?)</{name}>", text, re.DOTALL)
        return " ".join(f"'sha256-{base64.b64encode(hashlib.sha256(it.encode()).digest()).decode()}'" for it in found)

    # Pictures of boards have style attributes, which only 'unsafe-inline' allows.
    return (
        f"default-src 'none'; script-src {hashes('script')}; style-src 'unsafe-inline'; connect-src 'self'; img-src data:; "
        "form-action 'none'; base-uri 'none'; frame-ancestors 'none'"
    )


def page():
    """The page's bytes, and the header that says what it may do."""
    text = part("ask.html")
    text = re.sub(r'<link rel="stylesheet" href="(.*)">', lambda it: f"<style>\n{part(it[1])}\n</style>", text)
    text = re.sub(r'<script src="(.*)"></script>', lambda it: f"<script>\n{part(it[1])}\n</script>", text)
    return text.encode() + b"\n", policy(text)
