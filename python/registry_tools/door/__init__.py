"""Who comes to a desk, and by which way: heads that are refused unread, sockets at which the system says who it is,
links, what is kept over a restart, commands that are given there, and the log."""
