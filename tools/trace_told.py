"""A trace in words: counts, what did not succeed and why, and each key's life. `told`, `page` and `shrink` share it."""
import collections

from script_grammar import REFUSALS

SHOWN_STAMPS = 6


def many(count, what):
    return f"{count} {what}{'' if count == 1 else 's'}"


def counts(trace):
    """One line of counts."""
    again = sum(p["again"] is not None and p["kind"] == "req" for p in trace.packets)
    failed = sum(d["status"] != "success" for d in trace.done)
    return ", ".join(
        [
            many(len(trace.events), "event"),
            many(len(trace.packets), "packet"),
            f"{sum(p['lost'] for p in trace.packets)} lost",
            f"{sum(len(p['arrived']) > 1 for p in trace.packets)} delivered again",
            f"{again} sent again",
            f"{sum(a['denied'] is not None for a in trace.accesses)} denied",
            f"{len(trace.refused)} refused",
            f"{failed} of {many(len(trace.done), 'completion')} failed",
        ]
    )


def failures(trace, key=None, queue=None):
    """What did not succeed, by stamp, as (stamp, headline, reason): all of it, or that of a key or a queue pair."""
    rows = denied_accesses(trace, key, queue)
    if key is None:
        rows = refused_calls(trace, queue) + rows + failed_requests(trace, queue)
    return sorted(rows, key=lambda row: row[0])


def refused_calls(trace, queue):
    return [
        (call["stamp"], f"REFUSED {call['why']}: {call['text']}", REFUSALS.get(call["why"], ""))
        for call in trace.refused
        if queue is None or queue in trace.events[call["stamp"]]["queues"]
    ]


def denied_accesses(trace, key, queue):
    rows = []
    for access in trace.accesses:
        if access["denied"] and key in (None, access["key"]) and queue in (None, access["queue"], access["by"]):
            what = f"{access['side']} {access['kind']} of {access['length']} bytes at {hex(access['address'])}"
            headline = f"DENIED {access['denied']}: {what} under {access['key']}, for {who(access)}"
            rows.append((access["stamp"], headline, trace.why_denied(access)))
    return rows


def failed_requests(trace, queue):
    return [
        (
            done["stamp"],
            f"FAILED {done['status']}: {done['op']} {done['id']} of {done['queue']}",
            trace.why_failed(done),
        )
        for done in trace.done
        if done["status"] != "success" and queue in (None, done["queue"])
    ]


def who(access):
    return f"{access['by']} by way of {access['queue']}" if access["side"] == "remote" else access["queue"]


def keys(trace, key=None, queue=None):
    """Each key's life in a line, and below it, behind four spaces, who touched which bytes under it."""
    for grant in trace.grants:
        uses = uses_of(trace, grant, queue)
        if key in (None, grant["key"]) and (queue is None or uses):
            yield life(grant)
            for (by, kind, denied), accesses in uses.items():
                yield f"    {by}: {kind}{f' DENIED {denied}' if denied else ''} {spans(accesses)}   {stamps(accesses)}"
            if not uses:
                yield "    nobody"


def life(grant):
    end = "the end" if grant["revoked"] is None else f"@{grant['revoked']}, ended by {grant['how']}"
    covers = f"rights {grant['rights']}, {grant['address']}+{grant['length']}"
    what = f"{grant['object']} for {grant['queues']}, {covers}"
    return f"{grant['domain']} {grant['key']}: {what}, from @{grant['granted']} to {end}"


def uses_of(trace, grant, queue):
    """The accesses under a grant, by who made them, of which kind, and why they were denied."""
    uses = collections.defaultdict(list)
    for access in trace.accesses:
        if access["grant"] == grant["id"] and queue in (None, access["queue"], access["by"]):
            by = who(access) if access["side"] == "remote" else f"{access['queue']} itself"
            uses[by, access["kind"], access["denied"]].append(access)
    return uses


def spans(accesses):
    """The ranges of addresses that were touched, or asked for where they were denied, joined where they meet."""
    found = {(a["address"], a["length"] if a["denied"] else a["touched"]) for a in accesses}
    joined = []
    for first, length in sorted(found):
        if joined and first <= joined[-1][0] + joined[-1][1]:
            joined[-1][1] = max(joined[-1][1], first + length - joined[-1][0])
        else:
            joined.append([first, length])
    return ", ".join(f"{hex(first)}+{length}" for first, length in joined)


def stamps(accesses):
    shown = " ".join(f"@{a['stamp']}" for a in accesses[:SHOWN_STAMPS])
    more = f" .. @{accesses[-1]['stamp']} ({len(accesses)} times)" if len(accesses) > SHOWN_STAMPS else ""
    return shown + more
