"""What the script wasabi leaves to Python: the pages, why a command was refused, what had no effect, and programs that are made.

table has the modes, options, groups and statuses, on which all else stands; words reads a command by them; pages and complete print
them; programs, compile and prove find and make the program; notes, and tools/why, say what a command came to.
"""
