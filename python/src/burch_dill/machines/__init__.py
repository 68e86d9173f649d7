"""Machines that are written by programs: of so many stages, slots or units, and in wrong twins.

Each module writes one family and runs as a program too, as `python3 -m burch_dill.machines.dlx --help` says: `dlx` and
`vliw` the machines that the field measures by, `superscalar`, `scoreboard`, and `forwarding`, which also asks which of
its paths a pipeline needs.
"""
