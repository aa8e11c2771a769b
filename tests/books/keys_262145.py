"""131,072 inputs and 131,073 rules, one key too many."""
print("[inputs]")
for i in range(131072):
    print(f"i{i} = {i}")
print("[rules]")
for i in range(131073):
    print(f"r{i} = '1'")
