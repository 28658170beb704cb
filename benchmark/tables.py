"""The tables in Markdown, and what the figures say of the aims."""

from tasks import title, tree
from times import GIVE_UP


def shown(ns):
    """A time with three figures and its unit."""
    if ns is None:
        return f"> {GIVE_UP} s"
    units = (("s", 1e9), ("ms", 1e6), ("µs", 1e3), ("ns", 0))
    unit, size = next(pair for pair in units if ns >= pair[1])
    return f"{figures(ns / (size or 1), 3)} {unit}"


def figures(number, count=2):
    return f"{number:.{count}g}" if number < 10**count else f"{number:,.0f}"


def table(heads, rows):
    print("\n| " + " | ".join(heads) + " |\n|" + "---|" * len(heads))
    for row in rows:
        print("| " + " | ".join(str(cell) for cell in row) + " |")
    print(flush=True)


def calls_table(paths, library):
    keys = ["read", "check", "solve", "open", "edit", "edit_worst", "list"]
    heads = ["task", "bytes", "facts wrong", "outcome", *keys[:4], "edit, mean", "edit, worst", "list", "edit / open"]
    rows = [[title(p), p.stat().st_size, f"{library[p]['wrong']:.0f} of {library[p]['facts']:.0f}",
             library[p]["outcome"], *(shown(library[p][key]) for key in keys), f"{library[p]['ratio']:.3f}"]
            for p in paths]
    table(heads, rows)


def behind_first(path, times):
    """Is the library slower than Algorithm 1 beyond a tenth?"""
    return times.first[path] is not None and times.library[path]["solve"] > 1.1 * times.first[path]


def behind_asp(path, times):
    """Is the library slower than gringo with clasp less their start?"""
    return times.library[path]["solve"] > times.work(path)


def peers_row(path, times):
    asp, ours, first = times.asp[path], times.library[path]["solve"], times.first[path]
    least = f", least {asp.optimum}" if times.library[path]["outcome"] == "refused-10" else ""
    plain = figures(first / ours) if first else f"> {figures(GIVE_UP * 1e9 / ours)}"
    behind = ["Algorithm 1"] * behind_first(path, times) + ["gringo + clasp"] * behind_asp(path, times)
    return [title(path), tree(path) or "", times.library[path]["outcome"] + least, shown(ours), shown(first),
            shown(asp.gringo), shown(asp.clasp), plain, figures(times.both(path) / ours),
            figures(times.work(path) / ours), ", ".join(behind)]


def peers_table(paths, times):
    heads = ["task", "tree", "outcome", "library", "Algorithm 1", "gringo", "clasp", "Algorithm 1 / library",
             "gringo + clasp / library", "the same less an empty run", "library behind"]
    table(heads, [peers_row(p, times) for p in paths])


def growth(series, paths, times):
    of = [p for p in paths if p.stem.startswith(series)]
    begin, end = of[0], of[-1]
    both, first = times.both(end) / times.both(begin), times.first[end] / times.first[begin]
    ours = times.library[end]["solve"] / times.library[begin]["solve"]
    print(f"Growth from {begin.stem} to {end.stem}: library {figures(ours)}-fold, Algorithm 1 {figures(first)}-fold, "
          f"gringo + clasp {figures(both)}-fold.")
    peers_table(of, times)


def per_second(sorts, paths, library):
    """The slowest task of each sort, as calls a second."""
    rows = []
    for name in sorts:
        of = [library[p] for p in paths if p.stem.startswith(name)]
        slowest = lambda key: figures(1e9 / max(times[key] for times in of), 3)
        rows += [[name, *(slowest(key) for key in ("read", "solve", "edit", "edit_worst"))]] if of else []
    table(["slowest of", "files read", "tasks solved", "edits, mean cell", "edits, worst cell"], rows)


def hard_line(paths, times):
    """The slowest of the hard facts, next to its peers."""
    p = max(paths, key=lambda p: times.library[p]["solve"])
    both, work = shown(times.both(p)), shown(times.work(p))
    ours, first = shown(times.library[p]["solve"]), shown(times.first[p])
    print(f"The slowest of these {len(paths)} is {title(p)}: {ours}, where Algorithm 1 takes {first} and gringo with "
          f"clasp {both}, {work} without their start.\n")


def aim(name, reached, figure):
    print(f"- {name}: **{'yes' if reached else 'no'}**, {figure}.")


def peer_aim(name, paths, behind, peer, times):
    """That the library is behind a peer nowhere; the figure is of the task where it is furthest behind."""
    share = lambda p: times.library[p]["solve"] / max(1, peer(p))
    ended = [p for p in paths if peer(p) is not None]
    worst = max(ended, key=share)
    aim(name, not any(behind(p, times) for p in paths),
        f"{sum(behind(p, times) for p in paths)} of {len(paths)} tasks are; at most {figures(share(worst))} times the "
        f"peer's time, on {title(worst)}")


def edit_aim(paths, library):
    of = [p for p in paths if library[p]["facts"] == 64 and library[p]["wrong"] >= 3]
    worst_cell = lambda p: library[p]["edit_worst"] / library[p]["open"]
    mean, cell = max(of, key=lambda p: library[p]["ratio"]), max(of, key=worst_cell)
    aim("an edit at most 1/20 of an opening, 64 facts with three or more wrong", library[mean]["ratio"] <= 1 / 20,
        f"{sum(library[p]['ratio'] > 1 / 20 for p in of)} of {len(of)} tasks are above; at most "
        f"{library[mean]['ratio']:.3f} over the mean of a task's cells, on {title(mean)}, and {worst_cell(cell):.2f} "
        f"for its worst cell, on {title(cell)}")


def aims(paths, hard, longest, times):
    """What was set out to be reached, each with the figure of this run."""
    library = times.library
    peer_aim("no task slower than Algorithm 1 beyond a tenth", paths, behind_first, times.first.get, times)
    peer_aim("none slower than gringo with clasp less their start", paths, behind_asp, times.work, times)
    if hard:
        slowest = max(hard, key=lambda p: library[p]["solve"])
        ns = library[slowest]["solve"]
        aim("the hardest fact in one run found by a climb under 3 ms", ns < 3e6, f"{shown(ns)}, {title(slowest)}")
    edit_aim(paths, library)
    byte = library[longest]["read"] / longest.stat().st_size
    aim("reading at most 5 ns a byte on the longest file", byte <= 5, f"{figures(byte)} ns, {title(longest)}")
