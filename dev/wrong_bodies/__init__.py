"""Tries wrong bodies of functions, each of which the prover must refuse: dev/refuse_bodies.py is the command.

edits    reads the wrong bodies, and finds the functions that they change
neutral  makes neutral edits, which show what a refusal of another shape is worth
checks   reads what a check said, and decides what became of the edits of a round
rounds   tries the edits of a crate in rounds, in a copy of the repository
records  keeps what was seen refused
listing  lists the edits by the functions that they change
"""
