"""What contrib/solve-folder is made of: the records of a folder, the tables of its answers, and the ways to ask the program."""
