"""Captures: what people have, made into one that the program takes, and what it holds besides the answers."""
