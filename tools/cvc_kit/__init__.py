"""Companions of the checker cvc: they read its files and its report, and never change what it says. None of them is proved."""
