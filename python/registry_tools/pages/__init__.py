"""HTML pages: of a day, of a month, of a holder; a module for each, and what they share."""
