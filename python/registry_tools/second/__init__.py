"""The second answer: rules and faults of texts in plain Python, written from docs/RULES.md and docs/FORMATS.md."""
