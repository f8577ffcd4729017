"""A reader, checker and replayer of units in plain Python, which the program is compared with.

README.md says what is compared and what is not.
"""
