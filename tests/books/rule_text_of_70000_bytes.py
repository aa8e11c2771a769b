"""A formula longer than a text may be: it is told by its length as a formula."""
print("[rules]\na = '" + "1" * 70000 + "'")
