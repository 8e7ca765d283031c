"""A second body of the whole program for one clerk, written from what a docket is defined to be, not from the crates.

It is slow and plain on purpose: a docket is six lists of rows, nothing is kept beside them, and each answer, sheet and
calendar is computed from the lists anew. Each file has one subject; `office_reference.py` beside this folder runs it.
"""
