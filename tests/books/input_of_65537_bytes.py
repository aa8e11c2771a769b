"""An input of 65,537 bytes, and a later key with another fault."""
print("[inputs]\nt = '" + "\u00e4" * 32768 + "x'\nu = true")
