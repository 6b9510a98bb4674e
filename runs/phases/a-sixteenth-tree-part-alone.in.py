"""Fifteen pairs of a blank tree and an empty script, and a blank tree."""
print("%%\n%%\n" * 15, end="")
