"""An input of 65,536 bytes in letters of two."""
print("[inputs]\nt = '" + "\u00e4" * 32768 + "'\n[rules]\na = 'LEN(t)'\nb = 't & 1'")
