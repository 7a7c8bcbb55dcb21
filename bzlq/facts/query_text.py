"""The parts of a query's text: blanks, quoted words, words, and single signs. (A word doesn't begin with `-`, which is an operator there.)"""
import re

SIGNS = r"A-Za-z0-9*/@._:$~\[\]"
WORD = f"[{SIGNS}][{SIGNS}-]*"
# (a word with other characters than bq takes without quotes is one all the same)
TOKEN = re.compile(rf"""\s+|"[^"]*"|'[^']*'|[{SIGNS}\x80-\U0010ffff][{SIGNS}\x80-\U0010ffff-]*|.""", re.S)
UNQUOTED = re.compile(WORD)
