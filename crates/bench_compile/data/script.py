def area(width, height=1, *, scale=1):
    """The area of a rectangle."""
    return [w * height * scale for w in range(width) if w]


class Shape:
    def __init__(self, sides):
        self.sides = sides


try:
    print(area(3), Shape(4).sides)
except (TypeError, ValueError) as error:
    raise error
finally:
    print("done")
