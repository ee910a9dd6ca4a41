"""The gate's budget of must-fail edits: each costs a check, and a crate's first one its whole proof again (docs/GATE.md)."""
import glob
import importlib.util
import os

TOP = os.path.dirname(os.path.dirname(os.path.dirname(os.path.abspath(__file__))))
A_CRATE, IN_ALL = 8, 60


def budget():
    """At most 8 must-fail edits a crate, 60 in all."""
    count = {}
    for path in glob.glob(f"{TOP}/crates/*/must-fail/*.edit"):
        crate = path.split("/")[-3]
        count[crate] = count.get(crate, 0) + 1
    wrong = [f"{crate} has {many} must-fail edits, more than {A_CRATE}" for crate, many in sorted(count.items()) if many > A_CRATE]
    return wrong + ([f"{sum(count.values())} must-fail edits in all, more than {IN_ALL}"] if sum(count.values()) > IN_ALL else [])


def by_hand():
    """Each edit that tests/outside/edits.py tries applies to its crate as it is."""
    found = importlib.util.spec_from_file_location("tried_by_hand", f"{TOP}/tests/outside/edits.py")
    tried = importlib.util.module_from_spec(found)
    found.loader.exec_module(tried)
    return tried.not_applicable(TOP)
