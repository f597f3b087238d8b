"""The program a second time, in plain Python, for tests alone: README.md here says what it is for.

Nothing here is fast on purpose; what counts is that the rule can be read off the code.
"""
