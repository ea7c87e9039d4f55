"""The keywords of Cilk in preprocessed C and C++, rewritten into marks for the compiler pass (pass/spawns.cpp)."""
from .rewrite import rewrite
from .source import ELISION, Refused

__all__ = ["ELISION", "Refused", "rewrite"]
