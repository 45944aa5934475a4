"""Day texts and reports: how they are read, what they have, and what follows from them."""
