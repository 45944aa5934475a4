"""What `./day` and the scripts of tools/ are made of: the rules and faults of texts in plain Python, and the office."""
