"""ntpaudit-dossier: many audits by ntpaudit, put together for a person.

The program `ntpaudit` gives each answer. Nothing here computes anything about clocks: a figure is what the program
printed, at most converted from ticks of 2^-32 s to milliseconds and from Unix seconds to civil times. What is looked
up, measured or read for a premise stands beside it, as what it is. It can take a yes away, and never gives one.
"""

VERSION = 10
"""The form of audit.json. An audit.json of another form is of another dossier, and its folder is audited again."""
