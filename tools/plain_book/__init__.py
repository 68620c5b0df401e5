"""A plain reading of a book: the language, the commands with their replies, dependence, and the questions of a follower.

It is written for clarity and not for speed, from docs/REFERENCE.md and docs/GRAPH.md, and shares nothing with the programs. So what both
answer alike is likely right.

values      JSON, paths and templates
items       attribute values, keys and the three calls
turns       what a state makes of a frame
book        the commands, and what each leaves
rows        steps, frames and dependence as the questions tell them
questions   which question a line is, and its answer
following   lines in, lines out: a stand-in for `rollback_graph --serve`
"""
