"""All are begun, and ended by ascending number."""
for session in reversed(range(1, 33)):
    print(f"{session} begun t{33 - session}\n{session} done")
for session in range(1, 33):
    print(f"{session} aborted ended")
print("order\nend")
