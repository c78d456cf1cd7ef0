# a cache that forgets what was used last, by a list of links
class Link:
    def __init__(self, key, value):
        self.key, self.value = key, value
        self.before = self.behind = None


class Cache:
    def __init__(self, room, make):
        self.room, self.make = room, make
        self.links = {}
        self.first, self.last = Link(None, None), Link(None, None)
        self.first.behind, self.last.before = self.last, self.first
        self.hits = self.misses = 0

    def _take_out(self, link):
        link.before.behind, link.behind.before = link.behind, link.before

    def _put_first(self, link):
        link.before, link.behind = self.first, self.first.behind
        self.first.behind.before = link
        self.first.behind = link

    def __call_make(self, key):
        self.misses += 1
        return self.make(key)

    def get(self, key):
        link = self.links.get(key)
        if link is None:
            link = Link(key, self.__call_make(key))
            self.links[key] = link
            if len(self.links) > self.room:
                self._forget()
        else:
            self.hits += 1
            self._take_out(link)
        self._put_first(link)
        return link.value

    def _forget(self):
        oldest = self.last.before
        self._take_out(oldest)
        del self.links[oldest.key]

    def keys(self):
        found, link = [], self.first.behind
        while link is not self.last:
            found.append(link.key)
            link = link.behind
        return found


class Loud(Cache):
    def _forget(self):
        print("forgets", self.last.before.key)
        super()._forget()


calls = []


def square(n):
    calls.append(n)
    if n < 0:
        raise ValueError(n)
    return n * n


cache = Loud(3, square)
for n in [1, 2, 3, 1, 4, 2, 1, 5, 1]:
    print(n, cache.get(n), cache.keys())
print(cache.hits, cache.misses, calls)
try:
    cache.get(-1)
except ValueError as error:
    print("made nothing of", error, cache.keys(), sorted(cache.links))
print(hasattr(cache, "__call_make"), hasattr(cache, "_Cache__call_make"), cache._Cache__call_make(6), cache.misses)
both = Cache(2, lambda pair: pair[0] + pair[1])
for pair in [(1, 2), (3, 4), (1, 2), (5, 6), (3, 4)]:
    both.get(pair)
print(both.keys(), both.hits, both.misses)
cache.get("x")
