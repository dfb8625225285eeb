"""Folders of strangers: how they are opened, written and worked on, what they hold, and the program that is asked."""
