"""The command line: the words of each command become what a function is given, and what it answers is told."""
