"""262,145 rules, of which the last in byte order is no formula."""
print("[rules]")
for i in range(262144):
    print(f"r{i} = '1'")
print("z = '1 +'")
