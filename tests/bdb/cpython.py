"""CPython's own bdb over frames that stand for those of a run: what stops, which breakpoint goes, and what is left of breakpoints."""
import bdb
import linecache

FILE = "/bdb_rows.py"
GENERATOR = 0x20


class Code:
    def __init__(self, flags):
        self.co_flags, self.co_filename, self.co_firstlineno = flags, FILE, -1


class Frame:
    def __init__(self, generator):
        self.f_code, self.f_lineno, self.f_back, self.f_trace, self.f_locals = Code(GENERATOR if generator else 0), 0, None, None, {}
        self.f_globals = {"true": True, "false": False}


class Debugger(bdb.Bdb):
    """A bdb that reads commands where it stops. Frame 2 is a generator's."""

    def __init__(self, lines):
        bdb.Breakpoint.clearBreakpoints()
        super().__init__()
        linecache.cache[FILE] = (1, None, ["pass\n"] * max(lines), FILE)
        self.reset()
        self.botframe = Frame(False)
        self.open = [Frame(i == 2) for i in range(3)]
        self.commands, self.deleted, self.has_stopped = [], [], False

    def come(self, event, caller, x, commands):
        """An event; the commands are read where it stops. Whether it did, and the numbers of the breakpoints that went."""
        frame = self.open[event.frame]
        frame.f_lineno, frame.f_back = event.line, self.botframe if caller is None else self.open[caller]
        frame.f_globals = {"true": True, "false": False, **({} if x is None else {"x": 2 if x else 0})}
        self.commands, self.deleted, self.has_stopped = commands, [], False
        if event.kind == "line":
            self.dispatch_line(frame)
        elif event.kind == "call":
            self.dispatch_call(frame, None)
        elif event.kind == "return":
            self.dispatch_return(frame, None)
        else:
            self.dispatch_exception(frame, (ValueError, ValueError(), None))
        return self.has_stopped, self.deleted

    def do_clear(self, number):
        self.deleted.append(int(number))
        self.clear_bpbynumber(number)

    def read(self, frame):
        self.has_stopped = True
        for name, *words in self.commands:
            getattr(self, f"on_{name}")(frame, *words)

    def user_call(self, frame, _):
        if self.stop_here(frame):
            self.read(frame)

    def user_line(self, frame):
        self.read(frame)

    def user_return(self, frame, _):
        self.read(frame)

    def user_exception(self, frame, _):
        self.read(frame)

    def row(self, number):
        """The breakpoint with a number, if one has it."""
        try:
            return self.get_bpbynumber(str(number))
        except ValueError:
            return None

    def on_break(self, _, line, temporary, condition):
        self.set_break(FILE, line, temporary, condition)

    def on_clear(self, _, number):
        self.clear_bpbynumber(str(number))

    def on_clear_all(self, _):
        self.clear_all_breaks()

    def on_condition(self, _, number, condition):
        if row := self.row(number):
            row.cond = condition

    def on_ignore(self, _, number, count):
        if row := self.row(number):
            row.ignore = count

    def on_enable(self, _, number, on):
        if row := self.row(number):
            row.enable() if on else row.disable()

    def on_step(self, _):
        self.set_step()

    def on_next(self, frame):
        self.set_next(frame)

    def on_until(self, frame, line):
        self.set_until(frame, line)

    def on_return(self, frame):
        self.set_return(frame)

    def on_continue(self, _):
        self.set_continue()

    def rows(self):
        return {row.number: (row.line, bool(row.temporary), bool(row.enabled), row.cond, row.ignore, row.hits)
                for row in bdb.Breakpoint.bpbynumber if row is not None}
