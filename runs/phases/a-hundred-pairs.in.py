"""A hundred pairs of a blank tree and an empty script: the number that is named is still the first that is too many."""
print("%%\n%%\n" * 99 + "%%")
