"""The commands of tools/measure, a module each: `add_words` says what it takes, `main` does it and returns the status."""

COMMANDS = ("tables", "check", "ends", "folder", "gtp", "inputs", "limits", "peers", "search", "short", "sizes")
