"""A root of locks over 63 leaves of locks: two transactions of the last, and one of the first."""
print('format = 1\ntables = ["t"]')
for number in range(1, 64):
    print(f'[[type]]\nname = "k{number}"')
print('[[node]]\nname = "root"\ncontrol = "locks"')
for number in range(1, 64):
    print(f'[[node]]\nname = "n{number}"\nparent = "root"\ncontrol = "locks"\ntypes = ["k{number}"]')
print("""%%
1 begin k63
2 begin k63
3 begin k1
1 write t 1 5
2 read t 1
3 read t 1
1 commit
2 read t 1
2 commit
3 read t 1
3 commit""")
