"""Pictures and tables of dumps, by numpy and matplotlib."""
