"""The program's checks of itself: what docs/SCOPE.md says of results in general, of particular inputs, and of the order of refusals.

Each operation's module has `check(chosen)`, over the inputs that were chosen as its vectors.
"""
