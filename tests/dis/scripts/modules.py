import a
import b as c, d
from e import f
from g import h as i, j
def k():
    import l
    from l import annotations as m
