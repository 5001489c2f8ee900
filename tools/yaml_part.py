"""The part of YAML that topologies of containerlab are written in: maps and lists, by indentation or in brackets, and texts, plain, quoted
or as blocks. All else (anchors, tags, several documents, texts over several lines) is refused, with the line where reading stopped.

Each text, number or truth is read as a text, and nothing as None."""

import collections
import json
import re

from graphs import Fault

Row = collections.namedtuple("Row", "number indent text")

QUOTED = r'"(?:[^"\\]|\\.)*"|\'(?:[^\']|\'\')*\''
# A colon or a hash sign belongs to a plain text where no blank is beside it.
PLAIN = r"(?:[^\s\[\]{},:#]|:(?=[^\s\[\]{},])|(?<=\S)#)+"
TOKEN = re.compile(rf"\s*({QUOTED}|[\[\]{{}},]|:(?=[\s\[\]{{}},]|$)|(?![\"'&*!|>%@`]){PLAIN}(?:[ ]+{PLAIN})*)")
KEY = re.compile(rf"({QUOTED}|[^\s\[\]{{}}\"'#&*!|>%@`-][^\"'#]*?|-[^\s\"'#][^\"'#]*?)\s*:(?:\s+|$)")
# A quotation mark within a word begins no quoted text.
REMARK = re.compile(rf"(?<!\w)({QUOTED})|(?:^|(?<=\s))#.*")


class Placed(dict):
    """A map, with its line and that of each of its keys."""

    def __init__(self, line):
        super().__init__()
        self.line, self.lines = line, {}

    def put(self, key, value, line):
        if key in self:
            raise Fault(f"{key} stands twice in one map", line)
        self[key], self.lines[key] = value, line


def text_of(word, line):
    """What a quoted or plain text says. Its escapes are those that JSON has, too."""
    if word[:1] == '"':
        try:
            return json.loads(word, strict=False)
        except ValueError:
            raise Fault(f"{word} is more of YAML than is read here", line) from None
    return word[1:-1].replace("''", "'") if word[:1] == "'" else word


def rows_of(text):
    """The rows of a file that are not empty, without remarks."""
    rows = []
    for number, line in enumerate(text.splitlines(), 1):
        bare = REMARK.sub(lambda found: found[1] or "", line).rstrip()
        if re.match(r" *\t", bare):
            raise Fault("a tab in the indentation", number)
        if bare and not (bare == "---" and not rows):
            rows.append(Row(number, len(bare) - len(bare.lstrip()), bare.lstrip()))
    return rows


class Flow:
    """A value in brackets, read word by word."""

    def __init__(self, words, line):
        self.words, self.at, self.line = words, 0, line

    def stop(self):
        found = f"`{self.words[self.at]}`" if self.at < len(self.words) else "the end"
        raise Fault(f"{found} stands where the value in brackets does not go on so", self.line)

    def takes(self, word):
        """Passes by a word, if it is the next."""
        is_next = self.words[self.at:self.at + 1] == [word]
        self.at += is_next
        return is_next

    def value(self):
        if self.takes("["):
            return self.items([], "]", lambda items: items.append(self.value()))
        if self.takes("{"):
            return self.items(Placed(self.line), "}", self.pair)
        return self.text()

    def text(self):
        if self.at == len(self.words) or self.words[self.at] in list("[]{},:"):
            self.stop()
        self.at += 1
        return text_of(self.words[self.at - 1], self.line)

    def pair(self, found):
        key = self.text()
        found.put(key, self.value() if self.takes(":") else None, self.line)

    def items(self, found, end, item):
        while not self.takes(end):
            item(found)
            if not self.takes(",") and self.words[self.at:self.at + 1] != [end]:
                self.stop()
        return found


class Reader:
    """Reads the rows of a file, from the first on."""

    def __init__(self, text):
        self.rows, self.at = rows_of(text), 0

    def next(self, least):
        """The next row, if it is indented at least so."""
        row = self.rows[self.at] if self.at < len(self.rows) else None
        return row if row and row.indent >= least else None

    def whole(self):
        value = self.block(0)
        if row := self.next(0):
            raise Fault(f"`{row.text}` does not go on with what is before it", row.number)
        return value

    def block(self, least):
        """The value whose rows begin here, None if no row is indented so far."""
        row = self.next(least)
        if row is None:
            return None
        if re.match(r"-(\s|$)", row.text):
            return self.sequence(row.indent)
        if KEY.match(row.text):
            return self.mapping(row.indent)
        self.at += 1
        return self.scalar(row.text, row)

    def sequence(self, indent):
        found = []
        while (row := self.next(indent)) and row.indent == indent and (dash := re.match(r"-(\s+|$)", row.text)):
            rest = row.text[dash.end():]
            if rest and rest[0] not in "|>":
                self.rows[self.at] = Row(row.number, indent + dash.end(), rest)
            else:
                self.at += 1
            found.append(self.scalar(rest, row) if rest[:1] in ("|", ">") else self.block(indent + 1))
        return found

    def mapping(self, indent):
        found = Placed(self.rows[self.at].number)
        while (row := self.next(indent)) and row.indent == indent and (key := KEY.match(row.text)):
            self.at += 1
            found.put(text_of(key[1], row.number), self.after(row, row.text[key.end():]), row.number)
        return found

    def after(self, row, rest):
        """The value of a key: the rest of its row, or the rows after it."""
        if rest:
            return self.scalar(rest, row)
        below = self.next(row.indent)
        is_list = below and below.indent == row.indent and re.match(r"-(\s|$)", below.text)
        return self.block(row.indent + (not is_list))

    def scalar(self, text, row):
        """A text, a value in brackets, or a block of text, which is passed by."""
        if text[0] in "|>":
            while self.next(row.indent + 1):
                self.at += 1
            return ""
        if text[0] in "[{":
            return self.flow(text, row)
        if text[0] in "&*!%@`" or (text[0] in "\"'" and not re.fullmatch(QUOTED, text)):
            raise Fault(f"`{text}` is more of YAML than is read here", row.number)
        return text_of(text, row.number)

    def flow(self, text, row):
        """A value in brackets, which may go on over the next rows."""
        while (words := self.words(text, row)) and sum(word in list("[{") for word in words) > sum(word in list("]}") for word in words):
            if self.at == len(self.rows):
                break
            text += f" {self.rows[self.at].text}"
            self.at += 1
        flow = Flow(words, row.number)
        value = flow.value()
        if flow.at < len(words):
            flow.stop()
        return value

    @staticmethod
    def words(text, row):
        found, place = [], 0
        while text[place:].strip():
            word = TOKEN.match(text, place)
            if word is None:
                raise Fault(f"`{text[place:].strip()}` is more of YAML than is read here", row.number)
            found.append(word[1])
            place = word.end()
        return found


def read(text):
    """The value that a file has."""
    return Reader(text).whole()
