import sys
import sys as system
from sys import exit, exit as leave

print(sys is system, exit is leave, sys.exit is exit, callable(exit), callable(sys))


def inner():
    import sys as module
    from sys import (exit,
                     exit as again)
    return module, exit is again


print(inner()[0] is sys, inner()[1])
for status in (None, 0, True, -1, "text", [1]):
    try:
        leave(status)
    except SystemExit as end:
        print("left with", repr(end), end)
try:
    exit()
except SystemExit as end:
    print(repr(end))
try:
    import nosuch
except ModuleNotFoundError as error:
    print(error, repr(error))
try:
    from nosuch import name
except ImportError as error:
    print(error)
try:
    import sys as first, nosuch as second
except ImportError:
    print(first is sys)
try:
    from sys import nosuch
except ImportError:
    print("no such name")
try:
    sys.nosuch
except AttributeError:
    print("no such attribute")
try:
    try:
        1 // 0
    finally:
        sys.exit("in a finally part")
except BaseException as end:
    print(repr(end))
