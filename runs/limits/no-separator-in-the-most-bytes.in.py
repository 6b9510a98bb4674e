"""4,194,304 line feeds."""
print("\n" * 4_194_304, end="")
