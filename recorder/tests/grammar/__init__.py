"""The constructs of the random programs of ../generator.py: each class draws itself, writes itself, and says to the
oracle what it does."""
