"""What ./test is made of.

command      the command line
suite        the tests of the folder tests/, and how they are run side by side
transcript   tests written as commands and what they print
documents    the transcripts in the documents
program      what tests written in Python use
many         many records at once, for them
judge        the report of streams, where all commands that judge them agree on it
gate         ./test --prove
"""
