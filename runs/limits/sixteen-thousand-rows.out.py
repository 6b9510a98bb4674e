"""The rows in ascending order, and the last one changed."""
print("1 begun t1\n1 value -16383\n1 done\n1 committed\norder t1")
for key in range(16_383):
    print(f"row t {key} {-key}")
print("row t 16383 -16382\nend")
