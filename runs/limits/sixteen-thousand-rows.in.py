"""16,384 starting rows, in descending order of keys."""
print('format = 1\ntables = ["t"]\n[[type]]\nname = "any"\n[[node]]\nname = "root"\ncontrol = "locks"\ntypes = ["any"]')
for key in reversed(range(16_384)):
    print(f'[[row]]\ntable = "t"\nkey = {key}\nvalue = {-key}')
print("""%%
1 begin any
1 read t 16383
1 add t 16383 1
1 commit""")
