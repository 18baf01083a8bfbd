"""The page model in Python: a reader, a marking and a making to compare the proved code with.

Written from the papers alone and simple rather than fast, so that an error here and one there are unlikely to agree.
"Document 01" is the scope paper, "document 02" that of the change requests, "the paper" is source document 000.
"""
