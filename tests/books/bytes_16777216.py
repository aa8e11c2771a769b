"""A book of 16,777,216 bytes, most of them a comment."""
import sys

book = "[rules]\na = '1 + 1'\n#"
sys.stdout.write(book + " " * (16777216 - len(book)))
