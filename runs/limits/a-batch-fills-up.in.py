"""A transaction of session 2, which stays active, and then 63 of session 1 and one more, over a timestamp root that does not say how many a batch admits."""
print("""format = 1
tables = ["t"]
[[type]]
name = "any"
[[node]]
name = "root"
control = "timestamp"
[[node]]
name = "a"
parent = "root"
control = "locks"
types = ["any"]
%%
2 begin any""")
for _ in range(63):
    print("1 begin any\n1 commit")
print("1 begin any")
