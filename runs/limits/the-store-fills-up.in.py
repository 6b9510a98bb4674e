"""8,192 transactions and one more."""
print("%%\n" + "1 begin any\n1 commit\n" * 8_192 + "1 begin any")
