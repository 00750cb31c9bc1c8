"""The meaning of every operation, in plain integers and by docs/SCOPE.md's own formulas, to be read beside it.

Written from the scope, which decides, and from the source documents that it cites, without sight of the library: where the two
agree, that says something of both.  Each module names the section that it follows.
"""
