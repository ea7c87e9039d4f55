"""The compiler wrappers: how they are called, what they compile, and what they put into a linked program."""
