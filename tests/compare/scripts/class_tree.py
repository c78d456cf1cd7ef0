# a binary tree of search with its walks
class Node:
    def __init__(self, key, value):
        self.key = key
        self.value = value
        self.left = None
        self.right = None


class Tree:
    def __init__(self):
        self.root = None
        self.size = 0
        self.steps = 0

    def put(self, key, value):
        if self.root is None:
            self.root = Node(key, value)
            self.size = 1
            return
        node = self.root
        while True:
            self.steps += 1
            if key == node.key:
                node.value = value
                return
            if key < node.key:
                if node.left is None:
                    node.left = Node(key, value)
                    break
                node = node.left
            else:
                if node.right is None:
                    node.right = Node(key, value)
                    break
                node = node.right
        self.size += 1

    def get(self, key, default=None):
        node = self.root
        while node is not None:
            if key == node.key:
                return node.value
            node = node.left if key < node.key else node.right
        return default

    def depth(self):
        def below(node):
            return 0 if node is None else 1 + max(below(node.left), below(node.right))
        return below(self.root)

    def walk(self, visit):
        def go(node):
            if node is None:
                return
            go(node.left)
            visit(node.key, node.value)
            go(node.right)
        go(self.root)

    def keys(self):
        found = []
        self.walk(lambda key, value: found.append(key))
        return found


class Counted(Tree):
    """A tree whose values are how often a key was put."""

    def put(self, key, value=1):
        super().put(key, self.get(key, 0) + value)

    def most(self, many):
        pairs = []
        self.walk(lambda key, value: pairs.append((-value, key)))
        return [(key, -value) for value, key in sorted(pairs)[:many]]


tree = Tree()
for n in [50, 20, 70, 10, 30, 60, 80, 30]:
    tree.put(n, n * n)
print(tree.keys(), tree.size, tree.depth(), tree.steps)
print(tree.get(30), tree.get(31), tree.get(31, "none"))

words = Counted()
for word in "the cat and the dog and the bird".split():
    words.put(word)
print(words.keys(), words.size, words.depth())
print(words.most(3))

deep = Tree()
for n in range(40):
    deep.put(n, None)
print(deep.depth(), deep.steps, Tree.keys(deep) == list(range(40)))
try:
    deep.put("x", 1)
except TypeError:
    print("keys are of one kind", deep.size)
print(hasattr(tree, "most"), hasattr(words, "most"), getattr(words, "size"))
