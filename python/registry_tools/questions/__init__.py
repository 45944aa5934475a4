"""What a day, or all days, are asked: commands that only read."""
