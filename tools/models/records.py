"""Records of journals, read by their layout (docs/FORMATS.md): big-endian numbers, and texts with a count of four bytes."""
from models.events import check_event
from models.streams import PUBLISHED, check_url
from models.subjects import check_subject
from models.values import Fault, NotJson, dump, read

LAST_NUMBER = 2**62
DAY = 86400


class Bad(Exception):
    """The offset of the first part that is cut or breaks its rule."""


class Record:
    """Bytes, and how many of them were read."""

    def __init__(self, data):
        self.data, self.at = data, 0

    def part(self, size, begun):
        """So many bytes of the part that begins there."""
        if len(self.data) - self.at < size:
            raise Bad(begun)
        self.at += size
        return self.data[self.at - size : self.at]

    def number(self, size=8, most=2**64 - 1):
        begun = self.at
        value = int.from_bytes(self.part(size, begun), "big")
        if value > most:
            raise Bad(begun)
        return value

    def counted(self):
        """Bytes after their count, and where the part begins."""
        begun = self.at
        return self.part(self.number(4), begun) if len(self.data) - begun >= 4 else self.part(4, begun), begun

    def text(self, rule=lambda text: text):
        """What a rule makes of a text, which is UTF-8."""
        data, begun = self.counted()
        try:
            return rule(data.decode())
        except (Fault, NotJson, UnicodeDecodeError):
            raise Bad(begun) from None

    def maybe(self, part):
        if self.number(1, 1):
            part()

    def texts(self):
        for _ in range(self.number(4)):
            self.text()

    def time(self):
        self.number(8, LAST_NUMBER)

    def delivery(self):
        if self.number(1, 1):
            self.text(lambda url: check_url(url, True))
            self.maybe(self.text)

    def subject(self):
        return self.text(lambda text: written(text, check_subject))

    def settled(self):
        for _ in range(self.number(4)):
            self.number()
            self.maybe(self.text)


def written(text, check):
    """What a text is read as, where it is the text that is written of it."""
    value = check(read(text.encode()))
    if dump(value) != text:
        raise NotJson
    return value


def published_uri(uri):
    if uri not in PUBLISHED:
        raise NotJson
    return uri


def created(record):
    record.text()
    record.text()
    record.texts()
    record.maybe(record.texts)
    record.delivery()
    record.number(8, DAY)
    record.number(1, 1)
    record.maybe(record.text)
    record.time()


def configured(record):
    record.text()
    record.maybe(record.texts)
    record.delivery()
    record.maybe(record.text)


def status_set(record):
    record.text()
    record.number(1, 2)
    record.maybe(record.text)
    record.number(1, 1)
    record.time()


def listed(record):
    record.text()
    record.subject()


def published(record):
    record.text()
    subject = record.subject()
    uri = record.text(published_uri)
    record.text(lambda text: written(text, lambda payload: check_event(uri, payload, subject)))
    record.time()


def settled(record):
    record.text()
    record.settled()


def asked(record):
    record.text()
    record.maybe(record.text)
    record.time()


FACTS = [created, configured, status_set, listed, listed, Record.text, published, settled, asked]


def fact(record):
    begun = record.at
    kind = record.number(1, len(FACTS))
    if kind == 0:
        raise Bad(begun)
    FACTS[kind - 1](record)


def token(record):
    begun = record.at
    if record.number(1) != 1:
        raise Bad(begun)
    record.counted()


def bad_offset(read_whole, data):
    """The offset at which bytes spell no record, none where they spell one, which is then their one spelling."""
    record = Record(data)
    try:
        read_whole(record)
    except Bad as bad:
        return bad.args[0]
    return record.at if record.at < len(data) else None
