"""What a trace tells, related: events, packets, keys, accesses, requests, and why something did not succeed.

It reads a trace word by word, as docs/FORMATS.md has it, and judges nothing: that a trace is lawful is what the checker
says (`tools/check_traces`). `told`, `page`, `explain`, `answers`, `sweep` and `shrink` stand on it.
"""
import os
import sys

OPCODES = {
    0: "SEND First",
    1: "SEND Middle",
    2: "SEND Last",
    3: "SEND Last Imm",
    4: "SEND",
    5: "SEND Imm",
    6: "WRITE First",
    7: "WRITE Middle",
    8: "WRITE Last",
    9: "WRITE Last Imm",
    10: "WRITE",
    11: "WRITE Imm",
    12: "READ",
    13: "READ answer First",
    14: "READ answer Middle",
    15: "READ answer Last",
    16: "READ answer",
    17: "ACK",
    18: "ATOMIC answer",
    19: "CAS",
    20: "ADD",
    22: "SEND Last Inv",
    23: "SEND Inv",
}
ACKNOWLEDGE = 17
RESPONSES = range(13, 19)
BTH_SIZE = 12
FIRST_RNR, FIRST_NAK = 0x20, 0x40  # syndromes from here on are RNR NAKs, and NAKs
NAKS = {0x60: "NAK sequence", 0x61: "NAK invalid request", 0x62: "NAK remote access", 0x63: "NAK operation"}
RIGHT_FOR = {
    ("remote", "read"): "r",
    ("remote", "write"): "w",
    ("remote", "cas"): "a",
    ("remote", "add"): "a",
    ("local", "write"): "l",
}
QUEUE_VERBS = {"qp", "unqp", "query", "init", "rtr", "rts", "sqd", "resume", "error", "reset", "post", "recv"}
# The state that a queue pair has after a verb.
STATES = {
    "qp": "reset",
    "reset": "reset",
    "init": "init",
    "rtr": "rtr",
    "rts": "rts",
    "sqd": "sqd",
    "resume": "rts",
    "error": "error",
    "unqp": "gone",
}
GRANT = ("domain", "key", "object", "queues", "address", "length", "rights", "runs")
DONE = ("queue", "side", "place", "id", "op", "status", "count", "imm", "key", "cause")
UNKNOWN = "the trace does not say why"


def run(main, name):
    """Runs a tool. A file that cannot be read is one line and the code 2; a pipe that nobody reads is no line."""
    try:
        code = main()
        sys.stdout.flush()
    except BrokenPipeError:
        os.dup2(os.open(os.devnull, os.O_WRONLY), sys.stdout.fileno())
        code = 2
    except (OSError, UnicodeDecodeError) as why:
        print(f"{name}: {why}", file=sys.stderr)
        code = 2
    sys.exit(code)


def text_of(name):
    """The text of a file, or of standard input where the name is `-`."""
    if name == "-":
        return sys.stdin.read()
    with open(name, encoding="ascii") as file:
        return file.read()


def decoded(packet):
    """What a packet is: its name, its PSN, and `req`, `ack`, `rnr`, `nak` or `odd`."""
    if len(packet) < BTH_SIZE or packet[0] not in OPCODES:
        return {"kind": "odd", "name": "odd bytes", "psn": None, "code": None}
    code = packet[0]
    name, kind = OPCODES[code], "ack" if code in RESPONSES else "req"
    if code == ACKNOWLEDGE and len(packet) > BTH_SIZE and packet[BTH_SIZE] >= FIRST_RNR:
        syndrome = packet[BTH_SIZE]
        kind, name = ("rnr", "RNR NAK") if syndrome < FIRST_NAK else ("nak", NAKS.get(syndrome, "odd ACK"))
    return {"kind": kind, "name": name, "psn": int.from_bytes(packet[9:12], "big"), "code": code}


def bytes_of(word):
    return bytes.fromhex(word) if word != "-" else b""


def queue_of(slot):
    """The name A/N of the queue pair in a slot A/D/S."""
    adapter, domain, place = map(int, slot.split("/"))
    return f"{adapter}/{256 * (domain + 1) + place}"


def adapter_of(queue):
    return queue.split("/")[0]


def is_failure(status):
    """A status that tells of a fault: a flush tells of another one's."""
    return status not in ("success", "flushed")


class Trace:
    """Lists of records. A stamp is the number of an event, and stamps relate the lists.

    events     lines, marks and words of each; its consumer (`by`) or none, its verb or turn, its answer, the queue
               pairs that it names, and the packet that was sent or arrived in it
    packets    from, to, index, place; sent, arrived, lost, and `again`: where the same packet was sent first
    grants     each key's life: from `granted` to `revoked`, and how it ended
    accesses   remote and local; the grant that was in force, whether it was denied, and whose packet asked for it
    requests   of send queues: posted, done, status
    done       completions; and drops, timers, refused calls, states, duplicates that did nothing (`twice`), and the
               lines behind the end (`replies`)
    """

    def __init__(self, text):
        self.events, self.replies, self.ended = [], [], None
        self.packets, self.grants, self.accesses, self.requests, self.done = [], [], [], [], []
        self.drops, self.timers, self.refused, self.states, self.twice = [], [], [], [], []
        self._mail = {}  # the packet of each target and index
        self._force = {}  # the grant in force of each adapter and key
        self._sent = {}  # where a packet like this was sent first
        self._acted = {}  # where a packet like this had an effect first
        self._posts = {}  # how many requests each queue pair has in this life
        self._asked = {}  # the request of each queue pair and place
        self._read(text)
        for event in self.events:
            self._relate(event)

    def request_at(self, queue, place):
        """The latest request of a queue pair at a place, or None."""
        return self._asked.get((queue, int(place)))

    # ---- lines

    def _read(self, text):
        event = None
        for number, line in enumerate(text.splitlines(), 1):
            words = line.split()
            if line.startswith(f"@{len(self.events)} ") and len(words) > 3 and self.ended is None:
                event = self._event(line)
                self.events.append(event)
            elif line.startswith(" ") and words and event:
                event["lines"].append(line)
                event["marks"].append(words)
            elif line.startswith("end ") and self.ended is None:
                self.ended, event = int(words[1]), None
            elif self.ended is not None:
                self.replies.append(line)
            else:
                raise ValueError(f"line {number} is no line of a trace: {line[:60]!r}")
        if not self.events and self.ended is None:
            raise ValueError("no trace: it has no line that begins with @, and no line `end N`")

    def _event(self, line):
        head, _, answer = line.partition(" -> ")
        words = head.split()
        return {
            "stamp": len(self.events),
            "lines": [line],
            "marks": [],
            "words": words[2:],
            "answer": answer,
            "queues": [],
            "by": words[2] if answer else None,
            "verb": words[3] if answer else words[2],
            "packet": None,
        }

    def _relate(self, event):
        if event["by"]:
            self._call(event)
        else:
            event["queues"].append(event["words"][1])
        for mark in event["marks"]:
            take = self.TAKEN.get(mark[0])
            if take:
                take(self, event, mark)
        event["queues"] = list(dict.fromkeys(event["queues"]))

    # ---- calls

    def _call(self, event):
        stamp, verb, words = event["stamp"], event["verb"], event["words"]
        queue = queue_of(words[2]) if verb in QUEUE_VERBS else None
        if queue:
            event["queues"].append(queue)
        if event["answer"].startswith("refused"):
            self.refused.append({"stamp": stamp, "text": " ".join(words), "why": event["answer"].split()[1]})
        elif verb in STATES:
            self.states.append((stamp, queue, STATES[verb]))
            if STATES[verb] == "reset":
                self._posts[queue] = 0
        elif verb == "post":
            self._post(stamp, queue, words)

    def _post(self, stamp, queue, words):
        place = self._posts.get(queue, 0)
        self._posts[queue] = place + 1
        request = {
            "queue": queue,
            "place": place,
            "id": words[3],
            "op": words[5],
            "posted": stamp,
            "done": None,
            "status": None,
            "signalled": "s" in words[4],
        }
        self.requests.append(request)
        self._asked[queue, place] = request

    # ---- marks

    def _take_sent(self, event, mark):
        source, target, index, place, packet = mark[1:]
        what = decoded(bytes_of(packet))
        same = (source, target, what["psn"], what["code"], what["name"])
        sent = {
            "id": len(self.packets),
            "from": source,
            "to": target,
            "index": index,
            "place": place,
            "sent": event["stamp"],
            "again": self._sent.get(same),
            "lost": False,
            "lot": event["words"][-1],
            "arrived": [],
            "size": len(bytes_of(packet)),
            **what,
        }
        self._sent.setdefault(same, event["stamp"])
        self.packets.append(sent)
        event["packet"] = sent["id"]
        event["queues"] += [source, target]
        if index != "-":
            self._mail[target, index] = sent
        if sent["kind"] == "nak" and sent["name"] != NAKS[0x60]:
            self._fails(event["stamp"], source)

    def _take_lost(self, event, mark):
        if self.packets:
            self.packets[-1]["lost"] = True

    def _take_arrived(self, event, mark):
        target, index = mark[1:]
        packet = self._mail.get((target, index))
        if packet:
            packet["arrived"].append(event["stamp"])
            event["packet"] = packet["id"]
            self._note_effect(event, packet)
        elif event["verb"] == "inject":
            event["queues"].append(target)

    def _note_effect(self, event, packet):
        """A request that arrives and leaves no other mark, where one like it left some, is a duplicate."""
        same = (packet["from"], packet["to"], packet["psn"], packet["code"])
        others = event["marks"][1:]
        if not others and same in self._acted and packet["kind"] == "req":
            self.twice.append({"stamp": event["stamp"], "queue": packet["to"], "first": self._acted[same]})
        elif others and others[0][0] != "dropped":
            self._acted.setdefault(same, event["stamp"])

    def _take_dropped(self, event, mark):
        self.drops.append({"stamp": event["stamp"], "queue": mark[1], "why": mark[2]})

    def _take_timer(self, event, mark):
        self.timers.append({"stamp": event["stamp"], "queue": mark[1], "why": mark[2]})

    def _take_granted(self, event, mark):
        grant = dict(zip(GRANT, mark[1:]))
        grant.update(
            id=len(self.grants),
            adapter=adapter_of(grant["domain"]),
            start=int(grant["address"], 16),
            length=int(grant["length"]),
            granted=event["stamp"],
            revoked=None,
            how=None,
        )
        self.grants.append(grant)
        self._force[grant["adapter"], grant["key"]] = grant

    def _take_revoked(self, event, mark):
        grant = self._force.pop(tuple(mark[1:]), None)
        if grant:
            grant.update(revoked=event["stamp"], how=self._doer(event))

    def _doer(self, event):
        """Who ended a key in an event."""
        if event["by"]:
            return f"{event['by']} {event['verb']}"
        if event["verb"] == "request":
            return f"a local operation of {event['words'][1]}"
        if event["packet"] is not None:
            packet = self.packets[event["packet"]]
            return f"{packet['name']} of {packet['from']}"
        return event["verb"]

    def _take_remote(self, event, mark):
        packet = self._mail.get((mark[1], mark[3]))
        self._access(event, mark[:3], mark[4:], packet, packet["from"] if packet else "an injected packet")

    def _take_local(self, event, mark):
        self._access(event, mark[:3], mark[3:], None, mark[1])

    def _access(self, event, names, words, packet, by):
        side, queue, domain = names
        key, kind, address, length, verdict, told = words[:6]
        grant = self._force.get((adapter_of(queue), key))
        self.accesses.append(
            {
                "stamp": event["stamp"],
                "side": side,
                "queue": queue,
                "domain": domain,
                "key": key,
                "kind": kind,
                "address": int(address, 16),
                "length": int(length),
                "denied": told if verdict == "denied" else None,
                "grant": grant["id"] if grant else None,
                "touched": self._touched(verdict, told),
                "packet": packet["id"] if packet else None,
                "by": by,
            }
        )
        if side == "remote" and verdict == "denied":
            self._fails(event["stamp"], queue)

    @staticmethod
    def _touched(verdict, told):
        """How many bytes an access touched."""
        if verdict == "found":
            return 8
        return len(bytes_of(told)) if verdict in ("read", "wrote") else 0

    def _take_done(self, event, mark):
        stamp, done = event["stamp"], dict(zip(DONE, mark[1:]), stamp=event["stamp"])
        self.done.append(done)
        event["queues"].append(done["queue"])
        request = self.request_at(done["queue"], done["place"]) if done["side"] == "send" else None
        if request and request["id"] == done["id"] and request["done"] is None:
            request.update(done=stamp, status=done["status"])
        if done["status"] != "success":
            self._fails(stamp, done["queue"])

    TAKEN = {
        "sent": _take_sent,
        "lost": _take_lost,
        "arrived": _take_arrived,
        "dropped": _take_dropped,
        "timer": _take_timer,
        "granted": _take_granted,
        "revoked": _take_revoked,
        "remote": _take_remote,
        "local": _take_local,
        "done": _take_done,
    }

    def _fails(self, stamp, queue):
        """A queue pair that denied, refused or failed something is in Error from here on."""
        if self.state_of(queue) != "error":
            self.states.append((stamp, queue, "error"))

    def state_of(self, queue):
        """The latest state of a queue pair that is known, or None."""
        return next((state for _, other, state in reversed(self.states) if other == queue), None)

    # ---- reasons

    def packets_of(self, done):
        """The packets of the request that completed, up to its completion."""
        if done["side"] != "send":
            return []
        same = (done["queue"], done["place"])
        return [p for p in self.packets if (p["from"], p["place"]) == same and p["sent"] <= done["stamp"]]

    def remote_accesses_of(self, done):
        """What the packets of the request that completed came to at the peer, up to its completion."""
        ids = {p["id"] for p in self.packets_of(done)}
        return [a for a in self.accesses if a["packet"] in ids and a["stamp"] <= done["stamp"]]

    def why_denied(self, access):
        """The reason why an access was denied, in a sentence."""
        grant = self.grants[access["grant"]] if access["grant"] is not None else None
        if access["denied"] == "no-grant":
            return self._why_no_grant(access, grant)
        if grant is None:
            return UNKNOWN
        if access["denied"] == "wrong-queue":
            return f"the key is for {grant['queues']} alone (bound at @{grant['granted']})"
        what = f"{access['side']} {access['kind']}"
        if access["denied"] == "no-right":
            needed = RIGHT_FOR.get((access["side"], access["kind"]), "another")
            return f"the key has the rights {grant['rights']}, and a {what} needs {needed}"
        if access["denied"] == "out-of-range":
            asked = f"{hex(access['address'])}+{access['length']}"
            return f"the key covers {hex(grant['start'])}+{grant['length']}, and {asked} was asked for"
        return UNKNOWN

    def _why_no_grant(self, access, grant):
        adapter, key, stamp = adapter_of(access["queue"]), access["key"], access["stamp"]
        here = [g for g in self.grants if g["adapter"] == adapter]
        lives = [g for g in here if g["key"] == key]
        begun = [g for g in lives if g["granted"] <= stamp]
        if grant and grant["domain"] != access["domain"]:
            return f"the key is one of domain {grant['domain']}, and {access['queue']} is of domain {access['domain']}"
        if grant and grant["object"] == "window":
            return "the key is a window's, and a window's key is none for one's own lists"
        if begun and begun[-1]["revoked"] is not None:
            life = begun[-1]
            ago = stamp - life["revoked"]
            ended = f"ended at @{life['revoked']} by {life['how']}"
            return f"the key was in force from @{life['granted']} and {ended}, {ago} event{'s' * (ago != 1)} before"
        if lives and not begun:
            return f"the key comes into force only at @{lives[0]['granted']}"
        like = [g for g in here if g["key"][:8] == key[:8]]
        if like:
            other = f"{like[-1]['key']}, granted at @{like[-1]['granted']}"
            return f"no such key; the same slot had {other}: another low byte"
        granted = ", ".join(sorted({g["key"] for g in here})[:4])
        return f"adapter {adapter} never granted such a key" + (f"; it granted {granted}" if granted else "")

    def why_failed(self, done):
        """The reason why a request or a receive completed without success, in a sentence."""
        if done["cause"] != "-":
            return f"refused: {done['cause']}"
        reason = self.REASONS.get(done["status"])
        return reason(self, done) if reason else UNKNOWN

    def _what_stays(self, done):
        """What a request that failed had done at its peer before."""
        acts = [a for a in self.remote_accesses_of(done) if not a["denied"]]
        written = {a["address"]: a["touched"] for a in acts if a["kind"] == "write"}
        atomics = [a for a in acts if a["kind"] in ("cas", "add")]
        said = ""
        if sum(written.values()):
            at = next(a["queue"] for a in acts if a["kind"] == "write")
            said += f"; {sum(written.values())} bytes of it had been written at {at} before, and stay there"
        if atomics:
            said += f"; it had acted at {atomics[0]['queue']} all the same, at @{atomics[0]['stamp']}"
        return said

    def _why_flushed(self, done):
        errors = [s for s, q, state in self.states if (q, state) == (done["queue"], "error") and s <= done["stamp"]]
        if not errors:
            return UNKNOWN
        by = self.events[errors[-1]]["by"]
        said = f"its queue pair went to Error at @{errors[-1]}" + (f", by {by}" if by else "")
        for other in self.done:
            if (other["queue"], other["stamp"]) == (done["queue"], errors[-1]) and is_failure(other["status"]):
                return f"{said}, with {other['op']} {other['id']} ({other['status']})"
        return said

    def _why_local_protection(self, done):
        same = (done["queue"], done["stamp"], "local")
        own = [a for a in self.accesses if a["denied"] and (a["queue"], a["stamp"], a["side"]) == same]
        return f"its own list: {own[-1]['key']} {own[-1]['denied']}: {self.why_denied(own[-1])}" if own else UNKNOWN

    def _why_local_length(self, done):
        return "the message is longer than the list of the receive that took it"

    def _why_bad_response(self, done):
        packet = self.events[done["stamp"]]["packet"]
        came = self.packets[packet]["name"] if packet is not None else "an injected packet"
        return f"an answer came that does not fit the request: {came}"

    def _said_denied(self, access):
        return f"@{access['stamp']}: {access['denied']}: {self.why_denied(access)}"

    def _why_remote_access(self, done):
        denied = [a for a in self.remote_accesses_of(done) if a["denied"]]
        if denied:
            last = denied[-1]
            return f"{last['queue']} denied the {last['kind']} at {self._said_denied(last)}{self._what_stays(done)}"
        # A READ is denied in a turn of its responder, which names no packet.
        tries = self.packets_of(done)
        for access in reversed(self.accesses if done["op"] == "read" and tries else []):
            if access["denied"] and access["side"] == "remote" and access["stamp"] <= done["stamp"]:
                if access["queue"] == tries[-1]["to"]:
                    return f"{access['queue']} denied it at {self._said_denied(access)}"
        return UNKNOWN

    def _failure_at_peer(self, done):
        """What failed last at the peer, up to the completion of a request, or None."""
        tries = self.packets_of(done)
        for other in reversed(self.done if tries else []):
            if other["queue"] == tries[-1]["to"] and other["stamp"] <= done["stamp"] and is_failure(other["status"]):
                return other
        return None

    def _why_remote_operation(self, done):
        other = self._failure_at_peer(done)
        if other is None:
            return UNKNOWN
        what = f"{other['op']} {other['id']} at @{other['stamp']}: {other['status']}"
        return f"{other['queue']} failed {what} ({self.why_failed(other)})"

    def _why_remote_invalid_request(self, done):
        tries, other = self.packets_of(done), self._failure_at_peer(done)
        said = f"{tries[-1]['to'] if tries else 'the peer'} found a packet of it invalid"
        if other:
            said += f": {other['op']} {other['id']} failed as {other['status']} at @{other['stamp']}"
        return said + self._what_stays(done)

    def _why_no_answer(self, done):
        tries = self.packets_of(done)
        if not tries:
            return UNKNOWN
        peer, came = tries[-1]["to"], {stamp for p in tries for stamp in p["arrived"]}
        drops = sorted({d["why"] for d in self.drops if d["stamp"] in came})
        denied = [a for a in self.remote_accesses_of(done) if a["denied"]]
        said = f"its packets were sent {len(tries)} times, {sum(p['lost'] for p in tries)} lost"
        if drops:
            said += f"; dropped at {peer}: {', '.join(drops)}"
        for answer in self._lost_answers(done, tries)[:3]:
            said += f"; the {answer['name']} of @{answer['sent']} was lost"
        if denied:
            said += f"; {peer} had denied it at {self._said_denied(denied[0])}, and is in Error since"
        elif all(p["index"] == "-" for p in tries):
            said += "; no path: the two queue pairs do not name each other's present life"
        return said + self._what_stays(done)

    def _lost_answers(self, done, tries):
        """The answers that were lost on the way back while a request was tried."""
        way = (tries[-1]["to"], done["queue"])
        between = range(tries[0]["sent"] + 1, done["stamp"] + 1)
        back = [p for p in self.packets if (p["from"], p["to"]) == way and p["kind"] != "req"]
        return [p for p in back if p["lost"] and p["sent"] in between]

    REASONS = {
        "flushed": _why_flushed,
        "local-protection": _why_local_protection,
        "local-length": _why_local_length,
        "bad-response": _why_bad_response,
        "remote-access": _why_remote_access,
        "remote-operation": _why_remote_operation,
        "remote-invalid-request": _why_remote_invalid_request,
        "retry-exceeded": _why_no_answer,
        "rnr-retry-exceeded": _why_no_answer,
    }
