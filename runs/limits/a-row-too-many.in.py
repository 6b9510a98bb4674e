"""16,385 starting rows."""
print('format = 1\ntables = ["t"]\n[[type]]\nname = "any"\n[[node]]\nname = "root"\ncontrol = "locks"\ntypes = ["any"]')
for key in range(16_385):
    print(f'[[row]]\ntable = "t"\nkey = {key}\nvalue = 0')
print("%%")
