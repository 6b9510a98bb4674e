"""The separator and line feeds, 4,194,305 bytes in all."""
print("%%\n" + "\n" * 4_194_302, end="")
