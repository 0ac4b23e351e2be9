"""What may come of a row of `scenarios` or `shared_rows` of whose requests for memory one is refused, or all from one on.

Such a row, `memory once ROW`, `memory until ROW` or `memory always ROW`, writes each outcome once, parted by ` / `. One of them has to be
that of the run in which nothing is refused, which `tests/refused_memory.json` has; each other one is held against the rules below, by
what comes of further runs with ample memory. `tests/row_sweeps.py` calls `problems`.

- A session: there is none, and its file is as before; or what is refused is answered by `ERR 40 memory`, and the next answer, to the same
  once more, is that of the full run. Where all requests are refused from one on, or the disk can't grow (`ERR 30 journal`), the answers
  are those of the full run up to the first refusal, and nothing that takes memory is done after it: no seat is given and no report
  accepted. In the end the file has the reports that were judged, and at most one more where the disk couldn't grow.
- `check`: nothing, or replies of which some are the refusal, and all others are those of a run without these lines.
- `print`, `replay` and `show`: the whole, or nothing but the refusal.
- Conversations at the seats of a shared session: as for `check`, and some conversations may not begin. Without the refused lines and
  conversations all is that of a row without them.
"""
import re

UNBEGUN = re.compile(r"((1: |script 1: )?40 memory( status 6)?|30 journal( status 5)?| status 6)")
# A shared session was made, and there was no room for its shares: nobody spoke, and it and its file have nothing.
UNSEATED = "40 memory; 0 receipts; L 0; S 0 0 0 0 open | S 0 0 0 0 open"
REFUSALS = ("ERR 40 memory", "ERR 30 journal")


def is_verdict(answer):
    return answer.startswith(("OK ", "NO "))


def parts(text, mark=" # "):
    before, _, after = text.partition(mark)
    return before, after


def entries_of(status):
    """How many entries the counts `S ..` have, or 0."""
    return int(status.split(" ")[1]) if status.startswith("S ") else 0


def is_begun(full, came):
    """Whether these are the full answers up to a refusal, and nothing that takes memory is done after it."""
    first = next((place for place, answer in enumerate(came) if answer in REFUSALS), len(came))
    done = [answer for answer in came[first:] if answer.startswith(("J ", "OK ", "true "))]
    return came[:first] == full[:first] and not done


def is_judged(answer):
    """Whether it answers a report that was judged."""
    return is_verdict(answer) or answer.startswith(("true ", "false "))


def counts_all(answers, entries):
    """Whether each status counts the entries before and the reports that were judged so far."""
    for answer in answers:
        entries += is_judged(answer)
        if answer.startswith("S ") and entries_of(answer) != entries:
            return False
    return True


def is_session(way, row, full, came):
    """Whether this may come of a row `session` or `journal`."""
    (full, kept_in_full), (answers, kept) = parts(full, " | "), parts(came, " | ")
    records = re.findall(r"\$\+[0-9]+ [0-9]+ [ER]", parts(row)[0]) if row.startswith("journal ") else []
    if UNBEGUN.fullmatch(answers):
        return entries_of(kept) == len(records) and kept.startswith("S ") == row.startswith("journal ") or answers == "30 journal"
    answers, full = answers.split("; "), full.split("; ")
    cannot_grow = "ERR 30 journal" in answers
    if way == "always" or cannot_grow:
        judged = sum(map(is_judged, answers))
        right = is_begun(full, answers) and counts_all(answers, len(records))
        return right and 0 <= entries_of(kept) - len(records) - judged <= cannot_grow
    if "ERR 40 memory" not in answers:
        return False
    answers.remove("ERR 40 memory")
    return answers == full and kept == kept_in_full


def without(lines, replies):
    """The lines and the replies without those that were refused; and whether a session is closed from its first `ERR 30 journal` on."""
    kept, closed, good = [], False, True
    for line, reply in zip(lines, replies):
        if reply not in REFUSALS and reply != "ERR 31 closed":
            kept.append((line, re.sub(" closed$", " open", reply) if closed else reply))
            good = good and not (closed and is_verdict(reply)) and reply.startswith("S ") <= (reply.endswith(" closed") == closed)
        good = good and (closed or reply != "ERR 31 closed") and not (closed and reply == "ERR 30 journal")
        closed = closed or reply == "ERR 30 journal"
    return kept, good and len(lines) == len(replies)


def is_checked(way, text, came, checked):
    """Whether this may come of a row `check`. `checked` gives the replies to other lines, and the status."""
    begin, lines = parts(text)
    replies, status = came.rpartition(" status ")[::2]
    lines, replies = [[one for one in text.split("$") if one] for text in (lines, replies)]
    refused = sum(reply in REFUSALS for reply in replies)
    kept, good = without(lines, replies[:len(lines)])
    wanted, plain = checked(begin, [line for line, _ in kept])
    good = good and refused > 0 and (way == "always" or refused == 1)
    return good and [reply for _, reply in kept] == wanted and status == ("1" if plain == 1 else "6")


def is_talked(text, came, talked):
    """Whether this may come of conversations. `talked` gives what comes of others."""
    begin, inputs = parts(text)
    talks, rest = re.findall(r"((?:quit|input|no memory)[a-z ]*) \[(.*?)\]; ", came), came[came.rfind("]; ") + 3:]
    kept, wanted = [], ""
    for given, (end, replies) in zip(inputs.split(" # "), talks):
        if end.startswith("no memory"):
            continue
        seat, _, lines = given.partition(" ")
        replies = [reply for reply in replies.split("$") if reply]
        lines = lines.split("$")
        answered = [(line, reply) for line, reply in zip(lines, replies) if reply not in REFUSALS]
        refused = len(replies) - len(answered)
        kept.append("%s %s" % (seat, "".join(line + "$" for line, reply in zip(lines, replies + [""] * len(lines)) if line and reply not in REFUSALS)))
        ended = end.replace(" limit", "") if refused and not any(reply.startswith("ERR 2") for _, reply in answered) else end
        wanted += "%s [%s]; " % (ended, "".join(reply + "$" for _, reply in answered))
    if not kept:  # none began: the end is that of a row with a conversation that says nothing
        kept, wanted = ["1 "], "input []; "
    return wanted + rest == talked(begin, kept)


def is_allowed(way, row, full, came, checked, talked):
    if came == full or row[0].isdigit() and came == UNSEATED:
        return True
    if row.startswith(("session ", "journal ")):
        return is_session(way, row, full, came)
    if UNBEGUN.fullmatch(came):
        return True
    if row.startswith("check "):
        return is_checked(way, row[len("check "):], came, checked)
    return row[0].isdigit() and is_talked(row, came, talked)


def problems(way, row, full, line, checked, talked):
    """What is wrong with the outcomes that `memory WAY ROW` wrote in this line. `full` is that of a run in which nothing is refused."""
    outcomes = line.split(" / ")
    found = [] if full in outcomes else ["`memory %s %s` doesn't give `%s`, but: %s" % (way, row, full, line)]
    return found + ["`memory %s %s`: `%s` may not come" % (way, row, came) for came in outcomes if not is_allowed(way, row, full, came, checked, talked)]
