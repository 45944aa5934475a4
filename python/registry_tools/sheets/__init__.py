"""Tables of spreadsheets: read, written, and made into rows."""
