"""The frames of a capture, pcap or pcapng: what `pcap_to_script` and `answers` share."""
from roce_frames import PLACES

PCAP = (0xA1B2C3D4, 0xA1B23C4D)  # with microseconds, with nanoseconds
PCAPNG = (0x1A2B3C4D,)
SECTION, INTERFACE, SIMPLE, ENHANCED = 0x0A0D0D0A, 1, 3, 6  # blocks of pcapng
COMMENT = 1  # an option of a block


class BadCapture(Exception):
    """Why a file is not read as a capture."""


def part(data, at, size):
    if at + size > len(data):
        raise BadCapture("the capture ends in the middle")
    return data[at : at + size]


def number(data, at, order, size=4):
    return int.from_bytes(part(data, at, size), order)


def order_of(word, known):
    """The byte order in which a word is a known one."""
    for order in ("little", "big"):
        if int.from_bytes(word, order) in known:
            return order
    raise BadCapture("neither pcap nor pcapng")


def frames_of_pcap(data):
    order = order_of(data[:4], PCAP)
    link, at = number(data, 20, order) & 0xFFFF, 24
    while at < len(data):
        frame = part(data, at + 16, number(data, at + 8, order))
        yield link, frame, ""
        at += 16 + len(frame)


def frames_of_pcapng(data):
    at, order, links = 0, "little", []
    while at < len(data):
        kind = number(data, at, order)
        if kind == SECTION:  # it reads the same in both orders
            order, links = order_of(part(data, at + 8, 4), PCAPNG), []
        body = part(data, at, number(data, at + 4, order))[8:-4]
        if kind == INTERFACE:
            links.append(number(body, 0, order, 2))
        elif kind == ENHANCED:
            frame = part(body, 20, number(body, 12, order))
            yield links[number(body, 0, order)], frame, comment_in(body[20 + len(frame) + -len(frame) % 4 :], order)
        elif kind == SIMPLE:
            yield links[0], body[4:][: number(body, 0, order)], ""
        at += len(body) + 12


def comment_in(options, order):
    """The comment among the options of a block, or nothing."""
    at = 0
    while at + 4 <= len(options):
        code, size = number(options, at, order, 2), number(options, at + 2, order, 2)
        if code == COMMENT:
            return part(options, at + 4, size).decode("utf-8", "replace")
        at += 4 + size + -size % 4
    return ""


def frames_of(data):
    """Each frame of a capture: its link type, one of `roce_frames.PLACES`, its bytes, and its comment or nothing."""
    frames = frames_of_pcapng(data) if data[:4] == SECTION.to_bytes(4, "big") else frames_of_pcap(data)
    for count, (link, frame, comment) in enumerate(frames, 1):
        if link not in PLACES:
            raise BadCapture(f"frame {count}: frames of link type {link} are not read")
        yield link, frame, comment
