"""Makes the cases: a lower tester plays against a reference over the line protocol, and its levels are stored.

The generator never computes what a controller does: if the tester's levels depend on that, it asks the reference.
"""
