"""All rows, twice."""
ROWS = "".join(f"row t {key} {-key}\n" for key in range(16_384)) + "row t 16384 1\nend\n"
print("1 begun t1\n1 done\n1 committed\norder t1\n" + ROWS + "1 begun t1\n1 value 0\n1 value 1\n1 committed\norder t1\n" + ROWS, end="")
