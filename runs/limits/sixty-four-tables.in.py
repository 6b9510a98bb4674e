"""64 tables, of which the last and the first are written."""
print("format = 1")
print("tables =", [f"t{number}" for number in range(64)])
print("""[[type]]
name = "any"
[[node]]
name = "root"
control = "locks"
types = ["any"]""")
print("""%%
1 begin any
1 write t63 7 5
1 write t0 7 4
1 write t64 7 6
1 commit""")
