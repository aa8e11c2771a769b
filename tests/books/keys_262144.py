"""One input and 262,143 rules, each one more than the one before it."""
print("[inputs]\nk0 = 0\n[rules]")
for i in range(1, 262144):
    print(f"k{i} = 'k{i - 1} + 1'")
