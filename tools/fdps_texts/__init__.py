"""The texts that fdps reads and writes, as the tools beside this folder read them.

Only Python's own library is used here.
"""
