#!/usr/bin/env python3
"""Writes a rule file for a measurement: books.py KIND [SIZE] > book.toml

chain SIZE    each rule is the one before it plus 1, and the last is k(SIZE-1)
cycle SIZE    each rule is the one behind it, and the last is the first
wide SIZE     one input, rules that name it as often as 4,096 bytes allow, and a rule of a sum of all
bytes SIZE    the book of the README's first example, and a comment that makes it SIZE bytes long
"""
import sys


def chain(size):
    rules = ['k0 = "1"'] + [f'k{i} = "k{i - 1} + 1"' for i in range(1, size)]
    return "[rules]\n" + "\n".join(rules) + "\n"


def cycle(size):
    return "[rules]\n" + "".join(f'k{i} = "k{(i + 1) % size}"\n' for i in range(size))


def wide(size):
    inputs = "[inputs]\n" + "".join(f"i{j} = {j}\n" for j in range(100))
    terms = "+".join(f"i{j % 100}" for j in range(1000))[:4096].rsplit("+", 1)[0]
    return inputs + "[rules]\n" + "".join(f'r{i} = "{terms}"\n' for i in range(size)) + 'all = "' + "+".join(f"r{i}" for i in range(min(size, 600))) + '"\n'


def filled(size):
    book = '[inputs]\na = 10\nb = 20\n\n[rules]\nsum = "a + b"\ntotal = "sum + sum"\n'
    return book + "#" * (size - len(book))


KINDS = {"chain": chain, "cycle": cycle, "wide": wide, "bytes": filled}

if __name__ == "__main__":
    sys.stdout.write(KINDS[sys.argv[1]](int(sys.argv[2])))
