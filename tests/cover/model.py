"""Reports on a run from the pieces of its log, as plainly as can be: by the spans of calls, one line after the other."""

GREATEST = 2**64 - 1
AT_ONCE = 1000


def words(piece):
    """The kind, the line and the name that a piece tells."""
    line = piece.partition(b"\n")[0]
    kind, _, rest = line.partition(b" ")
    number, _, name = rest.partition(b" ")
    is_number = number != b"" and all(c in b"0123456789" for c in number) and int(number) < 2**32
    return kind, int(number) if is_number else None, name


def is_totals(piece):
    return piece.startswith(b"acts ")


def split(pieces):
    """The events, and what stands from the totals on."""
    at = next((i for i, p in enumerate(pieces) if is_totals(p)), len(pieces))
    return pieces[:at], pieces[at:]


def spans(events):
    """The name, the place and the end of each span."""
    out, open_calls = [], []
    for i, event in enumerate(events):
        kind, _, name = words(event)
        if kind == b"call":
            open_calls.append((name, i, len(open_calls) < AT_ONCE))
        elif kind == b"return" and open_calls:
            name, start, has_span = open_calls.pop()
            if has_span:
                out.append((name, start, i))
    return out + [(name, start, len(events)) for name, start, has_span in open_calls if has_span]


def number(n):
    return str(min(n, GREATEST)).encode()


def lines_report(lines, events):
    begun = [words(e)[1] for e in events if words(e)[0] == b"line"]
    counts = [(line, begun.count(line)) for line in sorted(set(lines))]
    out = [b"%d %s\n" % (line, number(n)) for line, n in counts]
    return b"".join(out) + b"covered %d of %d\n" % (sum(n > 0 for _, n in counts), len(counts))


def names_report(names, events):
    told, all_spans, out = [words(e) for e in events], spans(events), []
    begun = [i for i, t in enumerate(told) if t[0] == b"line"]
    for name in dict.fromkeys(names):
        calls = sum(t[0] == b"call" and t[2] == name for t in told)
        own = sum(told[i][2] == name for i in begun)
        mine = [(start, end) for n, start, end in all_spans if n == name]
        within = sum(any(start < i < end for start, end in mine) for i in begun)
        if calls:
            out.append(name + b" " + number(calls) + b" " + number(own) + b" " + number(within) + b"\n")
    return b"".join(out) + b"lines " + number(len(begun)) + b"\n"


def report(kind, given, events):
    return lines_report(given, events) if kind == "lines" else names_report(given, events)


def logged(kind, given, events_asked, totals_asked, pieces):
    """What the log gets of the pieces."""
    events, rest = split(pieces)
    out = list(events) if events_asked else []
    if rest:
        out.append(report(kind, given, events))
        out += (rest[:1] if totals_asked else []) + rest[1:]
    return out


class Failing:
    """A log whose calls fail at some numbers and want memory at others, and a log that counts over it."""

    def __init__(self, kind, given, events_asked, totals_asked, fails, wants):
        self.kind, self.given, self.asked, self.fails, self.wants = kind, given, (events_asked, totals_asked), fails, wants
        self.pieces, self.taken, self.calls, self.failed = [], [], 0, None

    def write(self, piece):
        """The error, if there is one."""
        before = len(logged(self.kind, self.given, *self.asked, self.pieces))
        self.pieces.append(piece)
        for new in logged(self.kind, self.given, *self.asked, self.pieces)[before:]:
            if self.failed:
                return None
            self.calls += 1
            self.failed = "memory" if self.calls in self.wants else "failed" if self.calls in self.fails else None
            if self.failed:
                return self.failed
            self.taken.append(new)
        return None
