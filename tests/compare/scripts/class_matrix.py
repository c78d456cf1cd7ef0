# matrices, and paths through a graph
class Matrix:
    def __init__(self, rows):
        self.rows = [list(row) for row in rows]
        self.height = len(self.rows)
        self.width = len(self.rows[0]) if self.rows else 0
        for row in self.rows:
            if len(row) != self.width:
                raise ValueError("rows of several lengths")

    def times(self, other):
        if self.width != other.height:
            raise ValueError(f"{self.width} columns by {other.height} rows")
        return Matrix([[sum([row[k] * other.rows[k][j] for k in range(self.width)]) for j in range(other.width)] for row in self.rows])

    def turned(self):
        return Matrix([[row[j] for row in self.rows] for j in range(self.width)])

    def power(self, n):
        result, base = Matrix.one(self.height), self
        while n:
            if n & 1:
                result = result.times(base)
            base = base.times(base)
            n >>= 1
        return result

    def shown(self):
        return "\n".join([" ".join([str(x) for x in row]) for row in self.rows])

    def one(n):
        return Matrix([[int(i == j) for j in range(n)] for i in range(n)])


class Graph:
    class Node:
        def __init__(self, name):
            self.name, self.near, self.seen = name, [], False

    def __init__(self, pairs):
        self.nodes = {}
        for a, b in pairs:
            self.node(a).near.append(self.node(b))

    def node(self, name):
        if name not in self.nodes:
            self.nodes[name] = self.Node(name)
        return self.nodes[name]

    def path(self, start, end):
        for node in self.nodes.values():
            node.seen = False
        waiting = [[self.node(start)]]
        while waiting:
            path = waiting.pop(0)
            if path[-1] is self.node(end):
                return [node.name for node in path]
            for node in path[-1].near:
                if not node.seen:
                    node.seen = True
                    waiting.append(path + [node])
        return None

    def counts(self):
        names = sorted(self.nodes)
        return Matrix([[sum([int(n.name == b) for n in self.nodes[a].near]) for b in names] for a in names])


print(Matrix([[1, 2], [3, 4]]).times(Matrix([[0, 1], [1, 0]])).shown())
print(Matrix([[1, 1], [1, 0]]).power(30).rows[0][1])
print(Matrix([(1, 2, 3)]).turned().shown())
for rows in ([[1], [1, 2]], [[1, 2, 3]]):
    try:
        print(Matrix(rows).times(Matrix.one(2)).shown())
    except ValueError as error:
        print("no product:", error)
graph = Graph([("a", "b"), ("b", "c"), ("a", "d"), ("d", "c"), ("c", "e"), ("e", "a"), ("f", "a")])
print(graph.path("a", "e"), graph.path("e", "d"), graph.path("a", "f"), graph.path("a", "a"))
print(graph.counts().power(3).shown())
print(type(graph.node("a")) is Graph.Node, Graph.Node.__name__, isinstance(graph, Graph.Node))
Matrix([[1]]).times(5)
