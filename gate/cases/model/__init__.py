"""A plain model of the program, written from docs/FORMATS.md and docs/PROVED.md alone.

It has no more than definitions: lists, recursion and searches through all possibilities. It is slow on
purpose, and knows nothing of how the program works.
"""
