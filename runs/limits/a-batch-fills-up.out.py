"""A batch admits 64. The next transaction waits for the first."""
names = [f"t{number}" for number in range(2, 65)]
print("2 begun t1")
for name in names:
    print(f"1 begun {name}\n1 committed")
print("1 again t1 at root\n2 aborted ended")
print("order", *names)
print("end")
