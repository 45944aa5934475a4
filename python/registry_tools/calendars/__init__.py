"""The calendar: working days, due days, deadlines, and how a date is spelt."""
