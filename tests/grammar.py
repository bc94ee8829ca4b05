"""A plain model of the frame grammar: whole streams in, units out, written from the documents and not from the program."""

from dataclasses import dataclass

MAX = 1_048_576


@dataclass
class Length:
    field: int
    offset: int = 0
    adjust: int = 0
    strip: int = 0
    order: str = "be"
    max: int = MAX

    def word(self):
        return (f"length,field={self.field},offset={self.offset},adjust={self.adjust},strip={self.strip},"
                f"order={self.order},max={self.max}")

    def head(self, s):
        """Nothing where more is needed, else a frame or a fault, and how many bytes it uses."""
        end = self.offset + self.field
        if len(s) < end:
            return None
        value = int.from_bytes(s[self.offset:end], "big" if self.order == "be" else "little")
        total = value + self.adjust + end
        if total < end:
            return "TooSmall", end
        if total > self.max:
            return "TooLong", total
        if total < self.strip:
            return "StripOver", total
        return (s[self.strip:total], total) if len(s) >= total else None

    def last(self, rest):
        return "Cut"


class Ended:
    """Frames that are ended by one of some endings: the first, and of those that end there the longest."""

    def head(self, s):
        found = [(s.find(e) + len(e), -len(e)) for e in self.endings if e in s]
        if not found:
            return None
        used = min(found)[0]
        ending = max((e for e in self.endings if s[:used].endswith(e)), key=len)
        content = s[:used - len(ending)]
        if len(content) > self.max:
            return "TooLong", used
        return (content if self.strip else s[:used]), used


@dataclass
class Line(Ended):
    end: str = "any"
    strip: bool = True
    max: int = MAX

    @property
    def endings(self):
        return {"any": [b"\n", b"\r\n"], "lf": [b"\n"], "crlf": [b"\r\n"]}[self.end]

    def word(self):
        return f"line,end={self.end},strip={'yes' if self.strip else 'no'},max={self.max}"

    def last(self, rest):
        return "TooLong" if len(rest) > self.max else rest


@dataclass
class Delim(Ended):
    endings: list
    strip: bool = True
    max: int = MAX

    def word(self):
        return (f"delim,hex={'|'.join(e.hex() for e in self.endings)},"
                f"strip={'yes' if self.strip else 'no'},max={self.max}")

    def last(self, rest):
        return "Cut"


@dataclass
class Fixed:
    size: int

    def word(self):
        return f"fixed,size={self.size}"

    def head(self, s):
        return (s[:self.size], self.size) if len(s) >= self.size else None

    def last(self, rest):
        return "Cut"


def units(codec, stream, ended=True):
    """Each unit's offset, and its bytes or the kind of its fault."""
    found, at = [], 0
    while at < len(stream):
        head = codec.head(stream[at:])
        if head is None:
            break
        found.append((at, head[0]))
        at += head[1]
    if ended and at < len(stream):
        found.append((at, codec.last(stream[at:])))
    return found


def report(codec, stream, ended=True):
    """The report of `frames`, and the line on standard error where there is a fault."""
    lines, fault = [], None
    for at, what in units(codec, stream, ended):
        if isinstance(what, str):
            lines.append(f"X {at} {what}")
            fault = fault or f"stream {at} {what}"
        else:
            lines.append(f"F {at} {len(what)} {what.hex() or '-'}")
    lines.append(f"end {len(stream)}")
    return "".join(line + "\n" for line in lines).encode(), fault
