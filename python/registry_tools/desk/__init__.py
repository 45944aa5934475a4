"""The folder of days in a browser: what is shown is read by the functions behind the commands, and each change is a
command. Nothing is kept here but what browsers are asked for: the folder is all that lasts."""
