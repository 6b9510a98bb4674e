"""64 types at one leaf, of which the last and the first are begun."""
names = [f"k{number}" for number in range(64)]
print('format = 1\ntables = ["t"]')
for name in names:
    print(f'[[type]]\nname = "{name}"')
print('[[node]]\nname = "root"\ncontrol = "locks"\ntypes =', names)
print("""%%
1 begin k63
1 write t 1 5
2 begin k0
2 read t 1
1 commit
3 begin k64""")
