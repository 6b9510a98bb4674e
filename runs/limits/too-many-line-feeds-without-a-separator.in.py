"""4,194,305 line feeds."""
print("\n" * 4_194_305, end="")
