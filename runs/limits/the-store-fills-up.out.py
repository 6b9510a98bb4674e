"""8,192 transactions commit, and the next is refused."""
names = [f"t{number}" for number in range(1, 8_193)]
for name in names:
    print(f"1 begun {name}\n1 committed")
print("1 refused full")
print("order", *names)
print("end")
