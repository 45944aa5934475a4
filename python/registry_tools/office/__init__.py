"""A folder of days: what it is, and each command as a function that is given and answers data (close.close, undo.undo).
They print nothing, and raise WordsFault, FileFault or RightsFault if something is wrong; then nothing is changed."""
