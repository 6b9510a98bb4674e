"""Two empty scripts, a separator before and after a blank tree, and 65,536 lines after the first separator in all."""
print("%%\n" + "\n" * 30_000 + "%%\n%%\n" + "\n" * 35_534, end="")
