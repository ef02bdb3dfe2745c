"""Faults for `look-cases --planted`, each of which `look-cases --check` must report."""

from .planted_tools import Fault

FOLDERS = ("--images", "0", "--folders", "40")
IMAGES = ("--images", "60", "--folders", "0")
WRONG = r"\b[1-9]\d* things wrong"


def account(file, old, new, words=IMAGES):
    """A rule of the account is turned: something differs."""
    return Fault(file, old, new, words, WRONG)


def reach(file, old, new, words, feature):
    """What is drawn no longer reaches a feature: it is missing."""
    return Fault(file, old, new, words, f"not reached: .*{feature}")


PLANTED = (
    account("rights.py", "ring > sdw.r2:\n        return 3,", "ring > sdw.r3:\n        return 3,"),
    account("rights.py", "if not sdw.write:", "if False:"),
    account("memory.py", "NoAccess(FIRST_DIRECTED + code", "NoAccess(FIRST_DIRECTED + code % 2"),
    account("fields.py", "return word | 1 << (35 - 29) if modified else word", "return word"),
    account("tally.py", "TALLIES = 1 << 12", "TALLIES = 1 << 11"),
    account("folder.py", "LINKAGE_BLOCKS = 64 * 16, ", "LINKAGE_BLOCKS = 64 * 9, ", FOLDERS),
    reach("cases_ends.py", '"lda huge2_$far"', '"dis 0"', FOLDERS, "code L6"),
    reach("cases_ends.py", "tagged(0o46)", "stop_by_call", FOLDERS, "code L1"),
    reach("cases_draft.py", "range(64) if self.ends else GOING", "GOING", IMAGES, "tag 40"),
    reach("cases_draft.py", "LONG = (14, 15, 16)", "LONG = (14,)", IMAGES, "chain of 16"),
    reach("cases_path.py", "sample(ROWS, 6)", "sample(ROWS[:-1], 6)", IMAGES, "instruction llr"),
)
