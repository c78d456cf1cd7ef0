# a page of text by parts that know how they are drawn
class Part:
    width = 12

    def lines(self):
        return []

    def boxed(self, corner="+", side="|"):
        inner = [line[:self.width] for line in self.lines()]
        edge = corner + "-" * self.width + corner
        return [edge] + [side + line + " " * (self.width - len(line)) + side for line in inner] + [edge]


class Text(Part):
    def __init__(self, text, width=None):
        self.text = text
        if width is not None:
            self.width = width

    def lines(self):
        found, line = [], ""
        for word in self.text.split():
            if line and len(line) + 1 + len(word) > self.width:
                found.append(line)
                line = word
            else:
                line = f"{line} {word}" if line else word
        return found + [line] if line else found


class Beside(Part):
    def __init__(self, *parts):
        self.parts = parts
        self.width = sum([part.width for part in parts]) + len(parts) - 1

    def lines(self):
        columns = [part.lines() for part in self.parts]
        found = []
        for i in range(max([len(column) for column in columns])):
            pieces = []
            for column, part in [(columns[j], self.parts[j]) for j in range(len(columns))]:
                piece = column[i] if i < len(column) else ""
                pieces.append(piece + " " * (part.width - len(piece)))
            found.append("|".join(pieces))
        return found


class Titled(Text):
    def __init__(self, title, text):
        super().__init__(text)
        self.title = title

    def lines(self):
        return [self.title, "=" * len(self.title)] + super().lines()


class Table(Part):
    def __init__(self, rows):
        self.rows = [[str(x) for x in row] for row in rows]
        self.widths = [max([len(row[j]) for row in self.rows]) for j in range(len(self.rows[0]))]
        self.width = sum(self.widths) + len(self.widths) - 1

    def lines(self):
        found = []
        for row in self.rows:
            found.append(" ".join([x + " " * (w - len(x)) for x, w in [(row[j], self.widths[j]) for j in range(len(row))]]))
        return found


def draw(part, **how):
    for line in part.boxed(**how):
        print(line)


story = "a newcomer finds each rule in a minute"
draw(Text(story))
draw(Text(story, 20), corner="*")
draw(Titled("rules", story))
draw(Beside(Text(story, 10), Titled("B", "x y z"), Part()), side="!")
draw(Table([("name", "n"), ("one", 1), ("eleven", 11)]))
Part.width = 5
draw(Part())
draw(Text("wide"))
print(Text("a").width, Titled("t", "").lines(), hasattr(Part, "text"), callable(Text.lines))
draw(Table([]))
