"""The lines of a script and the form of each word, as docs/SCRIPTS.md has them, so that a refusal can be told.

`explain` stands on it. `.ci/edge` compares it with the program, on scripts that were changed at random (`check_users`).
"""
import re

MAX_8, MAX_16, MAX_32, MAX_64 = (1 << 8) - 1, (1 << 16) - 1, (1 << 32) - 1, (1 << 64) - 1
MAX_CONSUMERS = 64
ANY_ADAPTERS = 256  # consumers' lines may name adapters that are not there
NUMBER = re.compile(r"0x[0-9a-fA-F]+|[0-9]+")
# What stands in the place of a word that is no number, for a reader.
FORMS = {
    "slot": "A/D/S: adapter, domain, slot, as 0/0/0",
    "domain": "A/D: adapter and domain, as 0/0",
    "queue": "A/N: adapter and queue pair number, as 1/256",
    "buffer": "A/B: adapter and buffer, as 0/0",
    "hex": "HEX: two hexadecimal digits a byte, or -",
    "flags": "FLAGS: letters of s f e in this order, or -",
    "rights": "RIGHTS: letters of l r w a b in this order, or -",
    "list": "LIST: one to four KEY:ADDRESS:LENGTH with commas between, or -",
    "pages": "PAGES: page numbers with commas between",
    "srq": "a slot of a shared receive queue, or -",
    "op": "OP: the request",
    "weather": "seed, lose, repeat, hold or hasten",
}


class Form:
    """What may stand in a place of a line: a number of a range, or a word of another kind."""

    def __init__(self, kind, name, low=0, high=0):
        self.kind, self.name, self.low, self.high = kind, name, low, high


def number(name, low=0, high=MAX_64):
    return Form("number", name, low, high)


def number_8(name):
    return number(name, 0, MAX_8)


def number_16(name):
    return number(name, 0, MAX_16)


def number_32(name):
    return number(name, 0, MAX_32)


SLOT, DOMAIN, QUEUE, BUFFER = (
    Form(*it) for it in (("slot", "A/D/S"), ("domain", "A/D"), ("queue", "A/N"), ("buffer", "A/B"))
)
KEY, LENGTH, OFFSET, ADDRESS, ID = (
    number_32("KEY"),
    number_32("LENGTH"),
    number_32("OFFSET"),
    number("ADDRESS"),
    number("ID"),
)
RIGHTS, LIST, HEX, LOW, IMM = (
    Form("rights", "RIGHTS"),
    Form("list", "LIST"),
    Form("hex", "HEX"),
    number_8("LOW"),
    number_32("IMM"),
)
ADAPTER = number("A", 0, 7)
SETUP = {
    "adapters": [number("N", 1, 8)],
    "buffer": [ADAPTER, number("LENGTH", 1, 1 << 20)],
    "events": [number("N", 1, 131_072)],
    "slots": [
        ADAPTER,
        number("DOMAINS", 1, 16),
        number("REGIONS", 0, 256),
        number("WINDOWS", 0, 256),
        number("CQS", 0, 64),
        number("SRQS", 0, 64),
        number("QPS", 0, 64),
    ],
    "weather": [Form("weather", "seed, lose, ..")],
}
WEATHER = {
    "seed": [number("S")],
    "lose": [QUEUE, number("I")],
    "repeat": [QUEUE, number("I"), number("K", 1, 255)],
    "hold": [QUEUE, number("I"), number("K", 1, 255)],
    "hasten": [QUEUE, number("T")],
}
VERBS = {
    "pd": [DOMAIN],
    "unpd": [DOMAIN],
    "reg": [SLOT, number_16("BUFFER"), OFFSET, LENGTH, RIGHTS],
    "mr": [SLOT, number_16("PAGES")],
    "dereg": [SLOT],
    "mw": [SLOT, number_8("KIND")],
    "unmw": [SLOT],
    "cq": [SLOT, number_16("CAPACITY")],
    "uncq": [SLOT],
    "srq": [SLOT, number_16("DEPTH")],
    "unsrq": [SLOT],
    "qp": [SLOT, number_16("SCQ"), number_16("RCQ"), number_16("SDEPTH"), number_16("RDEPTH"), Form("srq", "SRQ")],
    "unqp": [SLOT],
    "query": [SLOT],
    "init": [SLOT],
    "rtr": [SLOT, QUEUE, number_32("INCARNATION"), number_32("PSN"), number_16("MTU"), number_8("CODE")],
    "rts": [SLOT, number_32("PSN"), number_8("RETRY"), number_8("RNR"), number_8("READS")],
    "sqd": [SLOT],
    "resume": [SLOT],
    "error": [SLOT],
    "reset": [SLOT],
    "post": [SLOT, ID, Form("flags", "FLAGS"), Form("op", "OP")],
    "recv": [SLOT, ID, LIST],
    "srecv": [SLOT, ID, LIST],
    "poll": [SLOT, number_8("N")],
    "wait": [SLOT, number_8("N")],
    "store": [BUFFER, OFFSET, HEX],
    "load": [BUFFER, OFFSET, LENGTH],
    "inject": [QUEUE, HEX],
    "at": [number("T")],
}
OPS = {
    "send": [LIST],
    "sendimm": [IMM, LIST],
    "sendinv": [KEY, LIST],
    "write": [ADDRESS, KEY, LIST],
    "writeimm": [ADDRESS, KEY, IMM, LIST],
    "read": [ADDRESS, KEY, LIST],
    "cas": [ADDRESS, KEY, number("COMPARE"), number("SWAP"), LIST],
    "add": [ADDRESS, KEY, number("ADD"), LIST],
    "bind1": [number_16("WINDOW"), KEY, ADDRESS, LENGTH, RIGHTS],
    "bind2": [number_16("WINDOW"), KEY, LOW, ADDRESS, LENGTH, RIGHTS],
    "fastreg": [number_16("REGION"), LOW, number_16("BUFFER"), ADDRESS, LENGTH, RIGHTS, Form("pages", "PAGES")],
    "inv": [KEY],
}
# The words that may stand in a place where a word of the language has to stand.
TABLES = {"verb": VERBS, "op": OPS, "weather": WEATHER}
# How far the parts of a name may go, behind its adapter.
PARTS = {"slot": (MAX_8, MAX_16), "domain": (MAX_8,), "queue": (MAX_32,), "buffer": (MAX_16,)}
# What a verb's refusal means, for a reader.
REFUSALS = {
    "no-such": "the object, the buffer or the queue pair is not there: not made yet, ended, or outside of the slots",
    "no-domain": "the domain was not allocated (`pd`)",
    "domain-taken": "the domain is allocated already",
    "domain-in-use": "objects of the domain are still there",
    "slot-taken": "the slot has an object already",
    "empty": "the length is 0",
    "outside-buffer": "offset and length go past the end of the buffer",
    "rights-need-local-write": "rights w and a need l beside them",
    "windows-bound": "a window is still bound to it; end the window first",
    "cq-too-small": "a completion queue needs as many places as the depths of all its queue pairs together",
    "cq-in-use": "a queue pair uses it",
    "srq-in-use": "a queue pair uses it",
    "has-srq": "its receives come from a shared receive queue; post them by `srecv`",
    "too-long": "a list has at most 1,048,576 bytes",
    "queue-state": "sends may be posted in Ready to Send (rts), Sqd and Error, receives from Init on",
    "queue-full": "as many requests stand there as its depth; one leaves when its completion, or a later one, is taken",
    "transition": "this change is not allowed from its present state: init, rtr, rts in this order; reset from all",
    "out-of-range:peer": "the peer is not in the adapter's slots, or is the queue pair itself",
    "out-of-range:incarnation": "an incarnation is at least 1: the number of lives of the peer, 1 the first time",
    "out-of-range:psn": "a PSN is below 16,777,216",
    "out-of-range:mtu": "256, 512, 1024, 2048 or 4096",
    "out-of-range:rnr-code": "0 to 31",
    "out-of-range:retry": "0 to 7",
    "out-of-range:rnr-retry": "0 to 7, where 7 is without a limit",
    "out-of-range:reads": "1 to 16",
    "out-of-range:depth": "1 to 256; 0 for receives with a shared receive queue",
    "out-of-range:capacity": "1 to 4096",
    "out-of-range:pages": "1 to 256",
    "out-of-range:length": "at least 1; a poll asks for 1 to 16",
    "out-of-range:list": "the list of an atomic has 8 bytes",
    "out-of-range:kind": "1 or 2",
}


def value(word):
    return int(word, 16) if word.startswith("0x") else int(word)


def named(word):
    """A name with each of its numbers in its one spelling."""
    return "/".join(str(value(part)) for part in word.split("/"))


def is_consumer(word):
    return re.fullmatch("c[0-9]+", word) is not None


def fault(word, form, adapters):
    """The cause for which this word is refused where this form has to stand, or None, of so many adapters."""
    if form.kind == "number":
        return fault_of_number(word, form.low, min(form.high, adapters - 1) if form.name == "A" else form.high)
    if form.kind == "srq":
        return None if word == "-" else fault_of_number(word, 0, MAX_16)
    if form.kind in PARTS:
        return fault_of_name(word, (adapters - 1, *PARTS[form.kind]))
    if form.kind in ("flags", "rights"):
        letters = "sfe" if form.kind == "flags" else "lrwab"
        return None if word == "-" or word and word == "".join(c for c in letters if c in word) else "bad name"
    if form.kind == "hex":
        return None if word == "-" or re.fullmatch("([0-9a-fA-F]{2})+", word) else "bad hex"
    if form.kind == "list":
        return None if word == "-" else fault_of_pieces(word, (MAX_32, MAX_64, MAX_32), 4)
    if form.kind == "pages":
        return fault_of_pieces(word, (MAX_16,), None)
    return None


def fault_of_number(word, low, high):
    if not NUMBER.fullmatch(word):
        return "bad number"
    return None if low <= value(word) <= high else "out of limit"


def fault_of_name(word, most):
    parts = word.split("/")
    if len(parts) != len(most) or not all(NUMBER.fullmatch(part) for part in parts):
        return "bad name"
    return None if all(value(part) <= high for part, high in zip(parts, most)) else "out of limit"


def fault_of_pieces(word, most, count):
    pieces = [piece.split(":") for piece in word.split(",")]
    if not all(len(piece) == len(most) and all(NUMBER.fullmatch(part) for part in piece) for piece in pieces):
        return "bad number"
    few = count is None or len(pieces) <= count
    fit = all(value(part) <= high for piece in pieces for part, high in zip(piece, most))
    return None if few and fit else "out of limit"


def forms_of(words):
    """The forms of the words of a line, as far as they are known, behind its first word."""
    if words[0] in SETUP:
        behind = WEATHER.get(words[1], []) if words[0] == "weather" and len(words) > 1 else []
        return [*SETUP[words[0]], *behind]
    forms = [Form("verb", "what the consumer asks for")]
    if len(words) > 1:
        forms += VERBS.get(words[1], [])
        if words[1] == "post" and len(words) > 5:
            forms += OPS.get(words[5], [])
    return forms


def cause_of(line, adapters):
    """The cause for which a line is refused by its words alone, or None."""
    words = line.split()
    if not words or line.startswith("#"):
        return None
    if words[0] not in SETUP:
        if not is_consumer(words[0]):
            return "unknown word"
        if value(words[0][1:]) >= MAX_CONSUMERS:
            return "out of limit"
        adapters = ANY_ADAPTERS
    forms = forms_of(words)
    for place, form in enumerate(forms, 1):
        if place >= len(words):
            return "missing"
        if form.kind in TABLES:
            if words[place] not in TABLES[form.kind]:
                return "unknown word"
        elif fault(words[place], form, adapters):
            return fault(words[place], form, adapters)
    return "extra" if len(words) > len(forms) + 1 else None


def spelt(words):
    """The line as docs/SCRIPTS.md writes it."""
    if words[0] in SETUP:
        head = words[0]
    else:
        head = f"cK {words[1] if len(words) > 1 and words[1] in VERBS else '..'}"
    rest = [form.name for form in forms_of(words) if form.kind != "verb"]
    if words[0] == "weather" and len(words) > 1 and words[1] in WEATHER:
        rest[0] = words[1]
    if len(words) > 5 and words[1] == "post" and words[5] in OPS:
        rest[3] = words[5]
    return " ".join([head, *rest])
