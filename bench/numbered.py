# The rules of a file of claims that are alike with their tables, with pair numbers for letters. Usage: numbered.py PAIRS CLAIMS
# PAIRS is what "headwords list pairs" prints; rules that are given only are left out.
import re
import sys

pairs, claims = (open(name, encoding="utf-8").read() for name in sys.argv[1:])
number = {pair: f"{int(n):03}" for n, pair in (line.split("\t") for line in pairs.splitlines())}
for block in re.split(r"^table .*$", claims, flags=re.MULTILINE)[1:]:
    lines = [line.strip() for line in block.splitlines()]
    for line in lines if "alike" in lines else []:
        rule = re.match(r"(\S:\S) (=>|<=|<=>|/<=) (.*)", line)
        if rule:
            contexts = re.sub(r"\S:\S", lambda pair: number[pair[0]], rule[3]).replace(" ", "")
            print(rule[2], number[rule[1]], contexts)
