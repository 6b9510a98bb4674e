"""Sixteen pairs of a blank tree and an empty script."""
print("%%\n%%\n" * 15 + "%%")
