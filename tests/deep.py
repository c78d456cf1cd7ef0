"""Room for deep recursion: the evaluator of definitions recurs as deep as the trees and lists that it walks."""
import sys
import threading

RECURSION_LIMIT = 200_000
STACK_BYTES = 512 * 1024 * 1024


def call(function):
    """Calls a function on a thread with room for deep recursion, and gives its result; 1 where it raised."""
    sys.setrecursionlimit(RECURSION_LIMIT)
    threading.stack_size(STACK_BYTES)
    results = []
    thread = threading.Thread(target=lambda: results.append(function()))
    thread.start()
    thread.join()
    return results[0] if results else 1
