"""Errors in the definitions of pieces, each of which must show."""
import contextlib
import dataclasses
import os
import shutil
import tempfile


@dataclasses.dataclass
class Error:
    name: str
    module: str
    old: str
    new: str


ERRORS = [
    Error("an augmented assignment whose object isn't kept below", "StmPiece", "value_piece a n ▸ move (plain instr.Copy) ▸ op_piece around (T.get",
          "value_piece a n ▸ op_piece around (T.get"),
    Error("an item whose index and container are changed for each other", "StmPiece",
          "deleted_piece (S.item_at l a i) n = value_piece a n ▸ value_piece i (n + size a) ▸ act (plain instr.DelItem)",
          "deleted_piece (S.item_at l a i) n = value_piece a n ▸ value_piece i (n + size a) ▸ move (plain instr.Swap) ▸ act (plain instr.DelItem)"),
    Error("a `for` that goes on behind its first Next", "StmPiece", "act (to AtEnd 1) (n + size it + 1) l true) ▸ move (to Always 0)",
          "act (to AtEnd 1) (n + size it + 1) l true) ▸ move (to Always 1)"),
    Error("a `while` that is left where its test holds", "StmPiece", "closed (exp_piece around c n true []) ▸ act (to IfTrue 0)",
          "closed (exp_piece around c n true []) ▸ act (to IfFalse 0)"),
    Error("a handler that goes on behind its own code", "StmPiece", "deeper 1 (closed (body (n + 1))) ▸ move (plain instr.EndHandler) ▸ move (to Always 1)",
          "deeper 1 (closed (body (n + 1))) ▸ move (plain instr.EndHandler) ▸ move (to Always 0)"),
    Error("a `finally` part whose row keeps a slot more", "StmPiece", "ensured_piece (more st ss) guarded part = ensured guarded ▸",
          "ensured_piece (more st ss) guarded part = deeper 1 (ensured guarded) ▸"),
    Error("an exit whose row keeps a slot too few", "StmPiece", "▸ deeper 1 (ensured (taken_piece t", "▸ deeper 0 (ensured (taken_piece t"),
    Error("a `break` that keeps the iterator", "StmPiece", "▸ deeper 1 (looped 2 (all_piece body (for_body", "▸ deeper 0 (looped 2 (all_piece body (for_body"),
    Error("a re-test of a `while` that is told as its first test", "StmPiece", "closed (exp_piece around c n true [])", "closed (exp_piece around c n false [])"),
    Error("a re-test of a `for` that is told as its first Next", "StmPiece", "(act (to AtEnd 1) (n + size it + 1) l true)",
          "(act (to AtEnd 1) (n + size it + 1) l false)"),
    Error("a `finally` part that runs twice", "StmPiece", "ensured guarded ▸ deeper 1 part ▸ move", "ensured guarded ▸ deeper 1 (part ▸ part) ▸ move"),
    Error("a `return` that skips the `finally` part", "StmPiece", "ensured_piece (more st ss) guarded part = ensured guarded ▸ deeper 1 part",
          "ensured_piece (more st ss) guarded part = block (caught (guarded ▸ move (plain instr.Normal)) empty) ▸ deeper 1 part"),
    Error("an exit that isn't called on `break`", "StmPiece", "▸ deeper 1 (ensured (taken_piece t (n + size e + 1) ▸ items_piece r body k (behind_taken t (n + size e + 1))))",
          "▸ deeper 1 (block (caught (taken_piece t (n + size e + 1) ▸ items_piece r body k (behind_taken t (n + size e + 1)) ▸ move (plain instr.Normal)) empty))"),
    Error("a bound name that is left bound", "StmPiece", "▸ move (delete (around.variable [] y)) ▸", "▸"),
    Error("an `else` part of a `try` whose raises are handled", "StmPiece", "block (caught body (otherwise ▸ move (to Always 0)) ▸ handlers)",
          "block (caught (body ▸ otherwise) (move (to Always 0)) ▸ handlers)"),
    Error("a handler in whose body a jump from the tests may land", "StmPiece", "move (plain instr.Caught) ▸ move (plain instr.Pop) ▸ deeper 1 (closed",
          "deeper 1 (closed"),
    Error("a statement without acts that has no place of its own", "StmPiece", "if is_silent st then move (plain instr.Nop) ▸ p", "if is_silent st then p"),
    Error("a statement behind a `return` that isn't reached", "StmPiece", "else if leaves st && is_needed b then", "else if leaves st && false then"),
    Error("a `continue` to a place that isn't reached", "StmPiece", "(all_piece body (tested_body n c) (needed_if (some_exits Continue body)))",
          "(all_piece body (tested_body n c) free)"),
    Error("a `break` to a place that isn't reached", "StmPiece", "(behind_body n c body) (behind_loop (some_exits Break body) b)", "(behind_body n c body) b"),
    Error("a `break` that counts for the loop around", "Needed", "exits e (S.while l c body els) = some_exits e els", "exits e (S.while l c body els) = some_exits e body"),
    Error("a branch that is never taken and isn't needed", "Needed", "behind_branches true b = reached", "behind_branches true b = b"),
    Error("a decorator that is called first though it stands first", "StmPiece", "defined_piece r what (j ∷ ks) l (n + size e) y", "defined_piece r what (ks ++ j ∷ []) l (n + size e) y"),
]


@contextlib.contextmanager
def put_in(crates, error, crate="sem_compile.stm_pieces"):
    """A copy of the definitions with the error."""
    with tempfile.TemporaryDirectory() as folder:
        for c in os.listdir(crates):
            for part in ("specs", "src"):
                if os.path.isdir(os.path.join(crates, c, part)):
                    shutil.copytree(os.path.join(crates, c, part), os.path.join(folder, c, part))
        crate, *part = crate.split(".")
        name = os.path.join(folder, crate, "specs", *part, error.module + ".antt")
        with open(name, encoding="utf-8") as f:
            text = f.read()
        if text.count(error.old) != 1:
            raise ValueError(f"{error.name}: {error.old} stands there {text.count(error.old)} times")
        with open(name, "w", encoding="utf-8") as f:
            f.write(text.replace(error.old, error.new))
        yield folder
