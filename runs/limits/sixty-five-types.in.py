"""65 types at one leaf."""
names = [f"k{number}" for number in range(65)]
print('format = 1\ntables = ["t"]')
for name in names:
    print(f'[[type]]\nname = "{name}"')
print('[[node]]\nname = "root"\ncontrol = "locks"\ntypes =', names)
print("%%")
