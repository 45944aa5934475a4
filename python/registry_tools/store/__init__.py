"""The one file that has a folder of days: texts by their sums, events in a chain, and the tables of questions."""
