"""A book of 16,777,217 bytes, which is no TOML document either."""
import sys

book = "[rules\n#"
sys.stdout.write(book + " " * (16777217 - len(book)))
