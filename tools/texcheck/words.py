"""What is wrong with the arguments of texcache, or with a line of its list, in words (docs/REQUESTS.md)."""
import re

TOP_OF_LIST = 16777216

# The options with a number: the least, the most, the step between two, and the unit.
OPTIONS = {"workers": (1, 16, 1, ""), "budget": (0, 4294967296, 1, " bytes"), "shards": (1, 64, 1, ""),
           "handles": (1, 1024, 1, ""), "autotile": (0, 4096, 16, " texels"), "slots": (0, 65536, 1, "")}

COORDINATE, STEP, COUNT = (-2 ** 31, 2 ** 31 - 1), (-2 ** 30, 2 ** 30 - 1), (0, 2 ** 32 - 1)
WRAPS, FILTERS = ("black", "clamp", "periodic", "mirror"), ("closest", "bilinear", "trilinear")
# The fields of each request with what each may be; NAME, the rest of the line, has no values.
FORMS = {
    "tex": [("S", COORDINATE), ("T", COORDINATE), ("LOD", COUNT), ("SWRAP", WRAPS), ("TWRAP", WRAPS),
            ("FILTER", FILTERS), ("NCH", (1, 8)), ("NAME", None)],
    "texd": [*((it, STEP) for it in ("S", "T", "DSDX", "DTDX", "DSDY", "DTDY")), ("SWRAP", WRAPS), ("TWRAP", WRAPS),
             ("NCH", (1, 8)), ("NAME", None)],
    "pixels": [("LEVEL", COUNT), ("X", COORDINATE), ("Y", COORDINATE), ("W", COUNT), ("H", COUNT), ("NAME", None)],
    "hold": [("LEVEL", COUNT), ("X", COUNT), ("Y", COUNT), ("NAME", None)],
    "info": [("NAME", None)], "invalidate": [("NAME", None)], "renew": [("NAME", None)],
    "drop": [], "invalidate_all": [], "stat": [], "sync": [],
}
FRACTION = re.compile(r"-?\d*\.\d+|-?\d+\.\d*|-?\d+(\.\d*)?e-?\d+")
SIZE = re.compile(r"(\d+) *([KMG])(i?B)?", re.I)


def name_in(request):
    """The file name in a request; empty if it has none."""
    word, _, rest = request.partition(" ")
    return rest.split(" ", len(FORMS[word]) - 1)[-1] if FORMS.get(word) else ""


def range_text(least, most, step, unit):
    multiple = f", a multiple of {step}" if step > 1 else ""
    return f"{least} to {most}{unit}{multiple}"


def bad_number(name, value):
    """What is wrong with the value of an option; None if it is right."""
    least, most, step, unit = OPTIONS[name]
    wanted = range_text(least, most, step, unit)
    size = SIZE.fullmatch(value)
    if size:
        count = int(size[1]) << {"K": 10, "M": 20, "G": 30}[size[2].upper()]
        return f"--{name} {value}: write the number without a unit, {wanted}; {value} is {count}"
    if not re.fullmatch(r"[0-9]{1,10}", value):
        return f"--{name} {value!r}: it takes a number of 1 to 10 digits, {wanted}"
    if not least <= int(value) <= most or int(value) % step:
        return f"--{name} {value}: out of range, which is {wanted}"
    return None


def read_arguments(words):
    """The folders that arguments of texcache name, and what is wrong with them, None if nothing is found."""
    folders, seen, left, known = [], set(), list(words), (*OPTIONS, "no-automip")
    while left:
        word = left.pop(0)
        if word == "--":
            folders += left
            break
        if not word.startswith("-") or word == "-":
            folders.append(word)
            continue
        name, equals, value = word[2:].partition("=")
        if not word.startswith("--") or name not in known:
            return folders, f"{word}: there is no such option; the options are --{', --'.join(known)}"
        if name in seen:
            return folders, f"--{name}: it is given twice"
        seen.add(name)
        if name == "no-automip":
            if equals:
                return folders, "--no-automip: it takes no value"
            continue
        if not equals and not left:
            return folders, f"--{name}: its number is missing, {range_text(*OPTIONS[name])}"
        wrong = bad_number(name, value if equals else left.pop(0))
        if wrong:
            return folders, wrong
    if len(folders) > 1:
        return folders, f"one folder is expected, and there are {len(folders)}: {' '.join(map(repr, folders))}"
    return folders, None if folders else "the folder is missing: texcache FOLDER [OPTIONS] < LIST"


def expected(values):
    if isinstance(values[0], str):
        return f"one of {', '.join(values)}"
    return f"a whole number, {values[0]} to {values[1]}"


def bad_field(number, name, text, values):
    """What is wrong with the text of a field; None if it is right."""
    where = f"field {number}, {name}"
    if isinstance(values[0], str):
        return None if text in values else f"{where}: {text!r} is not {expected(values)}"
    if FRACTION.fullmatch(text) and name not in ("NCH", "W", "H"):
        return (f"{where}: {text!r} is a fraction, and {expected(values)} is expected. S, T and LOD are in 1/65536; "
                "tools/uv.py computes them from floats, as python3 tools/uv.py 0.25 0.75")
    sign = "-?" if values[0] < 0 else ""
    if not re.fullmatch(f"{sign}[0-9]{{1,10}}", text):
        return f"{where}: {text!r} is not a number; expected is {expected(values)}, after exactly one space"
    return None if values[0] <= int(text) <= values[1] else f"{where}: {text} is out of range: {expected(values)}"


def bad_line(line):
    """What is wrong with a line of the list, from left to right; None if nothing is found."""
    word, space, rest = line.partition(" ")
    if word not in FORMS:
        return f"there is no request {word!r}; the requests are {', '.join(FORMS)}"
    form = FORMS[word]
    if not form:
        return f"{word} has no fields, and something follows it, maybe a space" if space else None
    texts = rest.split(" ", len(form) - 1) if space else []
    for number, ((name, values), text) in enumerate(zip(form, texts), 1):
        wrong = bad_field(number, name, text, values) if values else None
        if wrong:
            return wrong
    if len(texts) < len(form) or not texts[-1]:
        missing = form[len(texts)][0] if len(texts) < len(form) else "NAME"
        return f"{missing} is missing; the form is: {word} {' '.join(name for name, _ in form)}"
    return None


def bad_list(data, number, cause):
    """What is wrong with a list, by the line and the cause that texcache names."""
    if cause == 9:
        return f"the list has more than {TOP_OF_LIST} bytes"
    if cause == 8:
        return f"line {number} of the list is request 1048577, and a list has at most 1048576"
    line = (data.split(b"\n")[number - 1:number] or [b""])[0].removesuffix(b"\r")
    if cause == 7:
        return f"line {number} of the list is not UTF-8"
    text = line.decode(errors="replace")
    return f"line {number} of the list: {bad_line(text) or 'it is not a request'}\n  {text[:200]}"
