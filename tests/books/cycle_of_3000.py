"""3,000 rules in a circle: the line names all of them and the first again."""
print("[rules]")
for i in range(3000):
    print(f"k{i} = 'k{(i + 1) % 3000}'")
