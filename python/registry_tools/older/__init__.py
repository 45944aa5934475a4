"""Folders of version 1.1, whose days lie in files: `./day upgrade` reads them, and nothing else does."""
