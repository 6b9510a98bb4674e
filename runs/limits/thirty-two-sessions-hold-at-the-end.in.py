"""Each of the 32 sessions begins a transaction, the greatest-numbered first, and writes a row."""
print("%%")
for session in reversed(range(1, 33)):
    print(f"{session} begin any\n{session} write t {session} 1")
