# shapes that know their area, by classes on one another
class Shape:
    sides = 0
    count = 0

    def __init__(self, name):
        self.name = name
        Shape.count += 1

    def area(self):
        raise NotImplementedError(self.name)

    def describe(self):
        return f"{self.name}: {self.sides} sides, area {self.area()}"

    def larger(self, other):
        return self if self.area() >= other.area() else other


class Rectangle(Shape):
    sides = 4

    def __init__(self, width, height, name="rectangle"):
        super().__init__(name)
        self.width, self.height = width, height

    def area(self):
        return self.width * self.height

    def turned(self):
        return Rectangle(self.height, self.width)


class Square(Rectangle):
    def __init__(self, side):
        super().__init__(side, side, name="square")

    def describe(self):
        return super().describe() + ", all equal"


class Triangle(Shape):
    sides = 3

    def __init__(self, base, height):
        Shape.__init__(self, "triangle")
        self.base, self.height = base, height

    def area(self):
        return self.base * self.height // 2


class Group(Shape):
    def __init__(self, *shapes):
        super().__init__("group")
        self.shapes = list(shapes)

    def add(self, shape):
        self.shapes.append(shape)
        return self

    def area(self):
        return sum([shape.area() for shape in self.shapes])

    def names(self):
        return ", ".join([shape.name for shape in self.shapes])


shapes = [Rectangle(2, 3), Square(4), Triangle(3, 5), Shape("nothing")]
for shape in shapes:
    try:
        print(shape.describe())
    except NotImplementedError as error:
        print("no area:", error)
group = Group(*shapes[:3]).add(Square(1))
print(group.describe(), "of", group.names())
print(shapes[0].larger(shapes[1]).name, shapes[0].turned().describe())
print(Shape.count, Square.count, [type(shape).__name__ for shape in shapes])
print(issubclass(Square, Shape), issubclass(Shape, Square), isinstance(shapes[2], (Rectangle, Group)), isinstance(group, Shape))
by_area = sorted(shapes[:3] + [group], key=lambda shape: shape.area())
print([shape.name for shape in by_area])
Square.sides = "four"
print(shapes[1].describe(), Rectangle.sides)
del Square.sides
print(shapes[1].sides)
shapes[1].sides = 5
print(shapes[1].sides, Square.sides, hasattr(shapes[3], "width"))
