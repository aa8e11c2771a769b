"""1,000 rules in a row, the last of which is dynamic."""
print("[rules]")
for i in range(999):
    print(f"k{i} = 'k{i + 1}'")
print("k999 = 'IF(1, k0)'")
