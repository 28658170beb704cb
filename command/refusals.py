"""What each refusal number says in words (document 01, "Refusal numbers"; 16, and the runs of 14: 02's request 1; 17: its request
4; 18: its request 6). They stand here alone."""

from taskfile import MOST_ACTIONS, MOST_FACTS, MOST_LIMIT, MOST_RUNS, MOST_STEPS

UNKNOWN_KIND, OUTSIDE, DISORDERED, HOPELESS, OFF_THE_LAYOUT, LOCK_WITHOUT_NEED = 2, 5, 6, 9, 17, 18

WORDS = {
    1: "the end record is missing, or a record passes the end of the file",
    2: "no record has this kind",
    3: "the sizes don't stand first, or stand there twice",
    4: f"a size is out of range: 1 to {MOST_FACTS} facts, 1 to {MOST_ACTIONS} actions, limit 0 to {MOST_LIMIT}",
    5: "no fact or action has this number",
    6: "out of order: kinds never go back, bodies ascend, no need, add, delete or lock in a further run",
    7: f"a run has more than {MOST_STEPS} steps",
    8: "there are bytes after the end record",
    9: "no list of repairs, of any length, makes {runs} valid",
    10: "a list of repairs makes {runs} valid, but none of at most {limit}, which is the limit",
    11: "the room for the result is too short",
    12: "the task is not well formed",
    13: "the session table has not 448 numbers, or is not in form",
    14: "a fact, an action or a run is not there",
    15: "the list of repairs doesn't ascend, or one of them is not permitted",
    16: f"there are more than {MOST_RUNS} runs",
    17: "the text is not of the layout",
    18: "there is a lock on a fact that the action does not need",
}


def told(number, runs="every run", limit="L"):
    """The words of a number; `runs` and `limit` are those of the task, where they are known."""
    return WORDS[number].format(runs=runs, limit=limit)
