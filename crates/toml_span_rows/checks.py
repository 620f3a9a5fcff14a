"""Further checks of rows (scripts/runs.py): each request for memory is refused in turn, first one of all rows at once.

The rows of the file `refused` must have the answers that are stored there. So a refusal that is not reported, one
request more or less, or another state after a refusal fails. Where `parse` tries its fast path in vain for want of
memory and then succeeds, a refusal is without effect. A row without `refused:` and `without effect:` makes no request.
"""
import difflib
import re
import subprocess

CALLS = r"(key_places|section_places|table_forms a|insertion_point bin|node_at 1[0-5]|quote_key|quote_string|replaced|"
CALLS += r"write[^:]*(look|at)=)"


def row(tester, text):
    """Returns a row of calls that allocate and its answer, as lines, and how many refused requests a call reports
    (`AllocError`, or the text of it). For each of these, the rest of the answer follows as a diff, with the number of
    the requests that have this effect."""
    tester.set_input(f"{text}\n".encode())
    usual, times, spared = tester.go(LD_PRELOAD=tester.faults), {}, 0
    for request in range(1, tester.requests() + 1):
        result = tester.go(LD_PRELOAD=tester.faults, REFUSED=str(request))
        if tester.is_silent(result, 1):
            tester.count += 1
        elif result == usual:
            spared += 1
        else:
            is_told = re.search(b"AllocError|memory allocation failed", result.out)
            tester.holds(result.status == 0 and is_told, f"{text}: request {request}: status {result.status}")
            times[result.out] = times.get(result.out, 0) + 1
    lines = usual.out.decode().splitlines() + [f"  without effect: {spared}"] * (spared > 0)
    for answer, count in times.items():
        for name, data in ("usual", usual.out), ("answer", answer):
            with open(f"{tester.room}/{name}", "wb") as it:
                it.write(data)
        ran = subprocess.run(["diff", "usual", "answer"], cwd=tester.room, stdout=subprocess.PIPE, text=True)
        lines += [f"  refused: {count}", *(f"  {it}" for it in ran.stdout.splitlines())]
    return lines, sum(times.values())


def check(tester):
    with open("stdin", "rb") as it:
        tester.set_input(b"".join(row for row in it if re.match(CALLS.encode(), row)))
    tester.refused(1, 200, 37)
    with open("refused", encoding="utf-8", newline="\n") as it:
        stored = it.read().splitlines()
    answers, reported = [], 0
    for line in stored:
        if not line.startswith((" ", "#")) and line:
            lines, told = row(tester, line)
            answers += lines
            reported += told
        elif not line.startswith(" "):
            answers.append(line)
    tester.holds(answers == stored, *difflib.unified_diff(stored, answers, "refused", "now", lineterm="", n=1))
    tester.holds(reported >= 200, f"{reported} refused requests are reported")
