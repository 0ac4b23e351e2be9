"""What `show` prints of a session."""

from __future__ import annotations

import json

from .alphabet import Alphabet
from .session import Entry, Session


def reason(entry: Entry, alphabet: Alphabet) -> str:
    """Why a report was rejected; nothing for one that was accepted."""
    if entry.verdict:
        return ""
    if entry.kind == "E":
        return " expected " + (" ".join(alphabet.listed(entry.possible)) or "nothing")
    if not entry.acceptances:
        return " never comes to rest"
    return " must offer one of" + "".join(" {%s}" % " ".join(alphabet.listed(one)) for one in entry.acceptances)


def entry_text(place: int, entry: Entry, alphabet: Alphabet) -> str:
    report = " ".join([entry.kind] + alphabet.listed(entry.events))
    return f"{place} {entry.seat} {entry.number} {report} {'OK' if entry.verdict else 'NO'}{reason(entry, alphabet)}"


def entry_json(place: int, entry: Entry, alphabet: Alphabet) -> dict[str, object]:
    value: dict[str, object] = {
        "place": place, "seat": entry.seat, "number": entry.number, "report": "event" if entry.kind == "E" else "refusal",
        "events": alphabet.listed(entry.events), "verdict": "OK" if entry.verdict else "NO"}
    if not entry.verdict and entry.kind == "E":
        value["expected"] = alphabet.listed(entry.possible)
    elif not entry.verdict:
        value["acceptances"] = [alphabet.listed(one) for one in entry.acceptances]
    return value


Coverage = tuple[list[dict[str, object]], list[str], list[str]]


def coverage(session: Session) -> Coverage:
    """The counts of each event; the events that never came though they could have; those that could never come."""
    counts: list[dict[str, object]] = []
    never_came, could_never_come = [], []
    for event in range(session.spec.alphabet.tick + 1):
        reports = [entry.verdict for entry in session.history if entry.kind == "E" and entry.events == 1 << event]
        possible = sum(entry.possible >> event & 1 for entry in session.history)
        name = session.spec.alphabet.text(event)
        counts.append({"event": name, "accepted": reports.count(True), "rejected": reports.count(False), "possible": possible})
        if not possible:
            could_never_come.append(name)
        elif True not in reports:
            never_came.append(name)
    return counts, never_came, could_never_come


def shown(session: Session, rejected: bool = False, with_coverage: bool = False, as_json: bool = False) -> str:
    """All lines of `show` for a session that watches."""
    entries = [(place, entry) for place, entry in enumerate(session.history, 1) if not (rejected and entry.verdict)]
    if as_json:
        values: list[object] = [entry_json(place, entry, session.spec.alphabet) for place, entry in entries]
        if with_coverage:
            counts, never_came, could_never_come = coverage(session)
            values += [*counts, {"never_came": never_came, "could_never_come": could_never_come}]
        judged, events, refusals, rejections = session.counts()
        values.append({"judged": judged, "events": events, "refusals": refusals, "rejected": rejections, "closed": False})
        return "".join(json.dumps(value, separators=(",", ":")) + "\n" for value in values)
    lines = [entry_text(place, entry, session.spec.alphabet) for place, entry in entries]
    if with_coverage:
        counts, never_came, could_never_come = coverage(session)
        lines += ["%(event)s accepted %(accepted)d rejected %(rejected)d possible %(possible)d" % count for count in counts]
        lines.append(f"never came: {' '.join(never_came) or 'nothing'}; could never come: {' '.join(could_never_come) or 'nothing'}")
    return "".join(line + "\n" for line in lines + [session.summary()])
