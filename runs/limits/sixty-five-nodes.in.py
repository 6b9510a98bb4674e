"""A root of locks over 64 leaves of locks."""
print('format = 1\ntables = ["t"]')
for number in range(1, 65):
    print(f'[[type]]\nname = "k{number}"')
print('[[node]]\nname = "root"\ncontrol = "locks"')
for number in range(1, 65):
    print(f'[[node]]\nname = "n{number}"\nparent = "root"\ncontrol = "locks"\ntypes = ["k{number}"]')
print("%%")
