"""Lines, lists and arguments for lists.py, worked out by hand from docs/REQUESTS.md; list_rows.json has them.

In PARSED and FAULTY each character stands for one byte.
"""
import json
from pathlib import Path

TABLES = json.loads(Path(__file__).with_suffix(".json").read_text(encoding="ascii"))
# valid requests with a number that is not in its shortest form, such as 007, and the request in its shortest form
SPELLED = TABLES["SPELLED"]
# valid requests in their shortest form
RIGHT = TABLES["RIGHT"]
# invalid lines, by the number of their cause
WRONG = {int(cause.split(":")[0]): lines for cause, lines in TABLES["WRONG"].items()}
# invalid lines with several causes, and the first cause from left to right
SEVERAL = TABLES["SEVERAL"]
# valid lists, and their requests; a name is the rest of its line
PARSED = [(given.encode("latin-1"), requests) for given, requests in TABLES["PARSED"]]
# invalid lists, and the first invalid line with its cause
FAULTY = [(given.encode("latin-1"), fault) for given, fault in TABLES["FAULTY"]]
# valid arguments with a bar between each two, without options, and the folder that they name
PLAIN = TABLES["PLAIN"]
# invalid arguments; in the last six a number is out of its range, or not a multiple of its step
BAD_WORDS = TABLES["BAD_WORDS"]
# invalid arguments of the sample program
BAD_NUMBERS = TABLES["BAD_NUMBERS"]
