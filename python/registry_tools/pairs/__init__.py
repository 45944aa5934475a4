"""What is asked and made of a day text and its report: it knows no folder."""
