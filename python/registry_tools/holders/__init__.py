"""What somebody outside does at the desk whose login office.ini ties to a holder: they see the accounts of this holder
alone (own.py), and ask and approve for them as one user (asking.py)."""
