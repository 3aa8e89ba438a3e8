"""Reads and writes the case files of crates/qc_rows/data, whose form docs/ROWS.md tells.

A case is TOML. What is written has one layout, so a file that is read and written again stays as it was.
"""
import re
import tomllib
from pathlib import Path

ROOT = Path(__file__).resolve().parent.parent
DATA = ROOT / "crates/qc_rows/data"
TEXTS = tomllib.loads((DATA / "texts.toml").read_text(encoding="utf-8"))
GIVEN = ("pieces", "shelf_fails", "sink_fails", "sweep", "cut")
FAILS = ("shelf_fails", "sink_fails", "sweep")


# ---------------------------------------------------------------- what a text stands for

def fill_holes(text, turn):
    def number(hole):
        divisor, modulus, factor, first, width = map(int, hole.group(1).split())
        return str(turn // divisor % modulus * factor + first).zfill(width)
    return re.sub(r"\{([0-9 ]+)\}", number, text)


def part_bytes(part):
    if isinstance(part, str):
        return part.encode()
    if isinstance(part, list):
        return bytes(part)
    if "{" not in part["text"]:
        return part["text"].encode() * part["times"]
    return "".join(fill_holes(part["text"], turn) for turn in range(part["times"])).encode()


def content(text):
    """The bytes of a text: of a shared one by its name, of a plain one, or of parts one after the other."""
    if isinstance(text, list):
        return b"".join(map(part_bytes, text))
    return (TEXTS[text[1:]] if text.startswith("@") else text).encode()


def is_long(path):
    """Whether a case repeats a text so often that its files are too long for us."""
    return any(int(count) > 2000 for count in re.findall(r"\{times = (\d+)", path.read_text(encoding="utf-8")))


# ---------------------------------------------------------------- the layout

def quoted(text):
    """A text on one line."""
    names = {"\n": "\\n", "\r": "\\r", "\t": "\\t", '"': '\\"', "\\": "\\\\"}
    return '"' + re.sub(r'[\x00-\x1f\x7f"\\\ufeff]', lambda at: names.get(at[0]) or f"\\u{ord(at[0]):04X}", text) + '"'


def text_form(text):
    """A text: on one line where it has one, else on lines of its own."""
    if "\n" not in text[:-1]:
        return quoted(text)
    if "'''" in text or text[-1] == "'" or re.search(r"[\x00-\x08\x0b-\x1f\x7f\ufeff]", text):
        lines = "\n".join(quoted(line)[1:-1] for line in text.split("\n"))
        return '"""\n' + (lines if '"""' in text or text[-1] == '"' else lines.replace('\\"', '"')) + '"""'
    return f"'''\n{text}'''"


def part_form(part):
    if isinstance(part, str):
        return text_form(part)
    if isinstance(part, list):
        return "[" + ", ".join(f"0x{byte:02X}" for byte in part) + "]"
    return f"{{times = {part['times']}, text = {quoted(part['text'])}}}"


def form(told):
    """A text, its parts, or what only a part of is wanted."""
    if isinstance(told, dict):
        return f"{{front = {form(told['front'])}}}"
    if isinstance(told, list):
        return "[\n" + "".join(f"  {part_form(part)},\n" for part in told) + "]"
    return text_form(told)


def key(name):
    return name if re.fullmatch(r"[A-Za-z0-9_-]+", name) else quoted(name)


class Case:
    """A case: what it is given and its outcomes, as TOML tells them, and the comments before each of them."""

    def __init__(self, path=None):
        self.path, self.notes, self.given, self.outcomes = path, [], {}, []
        if path is not None:
            text = path.read_text(encoding="utf-8")
            self.given = tomllib.loads(text)
            self.outcomes = self.given.pop("outcome")
            fronts = re.split(r"^(?=words = )|^(?=\[\[outcome\]\])", text, flags=re.MULTILINE)
            self.notes = [re.findall(r"^#.*$", re.sub(r"(?s).*(?:'''|\"\"\"|\])\n", "", front), re.MULTILINE)
                          for front in fronts[:-1]]

    @property
    def name(self):
        return str(self.path.relative_to(DATA))[:-5]

    @property
    def words(self):
        return self.given["words"]

    @property
    def files(self):
        """The bytes of each file by its name."""
        return {name: content(text) for name, text in self.given.get("file", {}).items()}

    @property
    def others(self):
        """What else the case is given: `fail` where calls fail, and `word` where a word isn't a plain one."""
        names = {"fail" if name in FAILS else name for name in set(self.given) - {"words", "file"}}
        return names | ({"word"} if any(word == "" or " " in word for word in self.words) else set())

    def text(self):
        lines = list(self.notes[0])
        lines.append("words = [" + ", ".join(map(quoted, self.words)) + "]")
        lines += [f"file.{key(name)} = {form(text)}" for name, text in self.given.get("file", {}).items()]
        for name in GIVEN:
            if name in self.given:
                value = self.given[name]
                lines.append(f"{name} = {quoted(value) if isinstance(value, str) else value}")
        for notes, outcome in zip(self.notes[1:], self.outcomes):
            lines += ["", *notes, "[[outcome]]", f"status = {outcome['status']}", f"report = {form(outcome['report'])}"]
            lines += [f"left.{key(name)} = {form(text)}" for name, text in outcome.get("left", {}).items()]
        return "\n".join(lines) + "\n"
