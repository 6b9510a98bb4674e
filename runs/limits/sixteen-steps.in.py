"""A pipeline of one type with 16 steps, each on a table of its own: the second transaction follows the first, and overtakes it nowhere."""
names = [f"s{number}" for number in range(16)]
print("format = 1")
print("tables =", names)
print('[[type]]\nname = "any"\nsteps =', [[name] for name in names])
print('[[node]]\nname = "root"\ncontrol = "pipeline"\ntypes = ["any"]')
print("""%%
1 begin any
2 begin any
1 write s0 1 1
2 write s0 1 2
1 write s1 1 1
2 write s0 1 2
2 write s15 2 2
1 write s15 1 1
1 read s1 1
2 write s14 2 2
2 write s15 2 2
1 commit
2 write s15 2 2
2 commit""")
