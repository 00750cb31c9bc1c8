"""The inputs that are chosen as test vectors, and the lines that they become.

Each operation's module has `chosen()`, its inputs in the order of printing, and `line`, the line of an input.
"""
