"""16,384 starting rows, a script that adds one, and a second tree that starts with them all."""
print('format = 1\ntables = ["t"]\n[[type]]\nname = "any"\n[[node]]\nname = "root"\ncontrol = "locks"\ntypes = ["any"]')
for key in range(16_384):
    print(f'[[row]]\ntable = "t"\nkey = {key}\nvalue = {-key}')
print("%%\n1 begin any\n1 write t 16384 1\n1 commit\n%%\n%%\n1 begin any\n1 read t 0\n1 read t 16384\n1 commit")
