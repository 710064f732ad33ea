"""What tshark, the program of Wireshark for terminals, reads in the frames of a capture: for `check_captures`."""
import functools
import shutil
import subprocess
import sys

NAMES = {  # of the fields of a packet, with those that tshark has for them
    "opcode": "infiniband.bth.opcode",
    "se": "infiniband.bth.se",
    "mig": "infiniband.bth.m",
    "pad": "infiniband.bth.padcnt",
    "version": "infiniband.bth.tver",
    "pkey": "infiniband.bth.p_key",
    "qp": "infiniband.bth.destqp",
    "ackreq": "infiniband.bth.a",
    "psn": "infiniband.bth.psn",
    "va": "infiniband.reth.va",  # of an AtomicETH too
    "rkey": "infiniband.reth.r_key",  # of an AtomicETH too
    "length": "infiniband.reth.dmalen",
    "swap": "infiniband.atomiceth.swapdt",
    "compare": "infiniband.atomiceth.cmpdt",
    "syndrome": "infiniband.aeth.syndrome",
    "class": "infiniband.aeth.syndrome.opcode",
    "credits": "infiniband.aeth.syndrome.credit_count",
    "timer": "infiniband.aeth.syndrome.timer",
    "nak": "infiniband.aeth.syndrome.error_code",
    "code": "infiniband.aeth.syndrome.reserved_value",
    "msn": "infiniband.aeth.msn",
    "found": "infiniband.atomicacketh.origremdt",
    "imm": "infiniband.immdt",
    "ieth": "infiniband.ieth",
    "rest": "data.data",  # payload and pad bytes, where no protocol is guessed from them
}
BYTES = ("imm", "ieth")  # are told as bytes, once for the header and once for its one field
BOOLEANS = {"False": "0", "True": "1"}  # where they are told so
OF_FRAME = (
    *("frame.time_epoch", "frame.len", "frame.comment", "_ws.expert.message", "eth.src", "eth.dst", "ip.src", "ip.dst"),
    *("ip.checksum.status", "udp.srcport", "udp.dstport", "infiniband.invariant.crc"),
)


def tshark(*words):
    run = subprocess.run(["tshark", *words], capture_output=True, text=True)
    if run.returncode:
        sys.exit(run.stderr.strip())
    return run.stdout


@functools.cache
def version():
    """The name and version of the tshark that is installed, or None."""
    return tshark("--version").split(" (Git")[0] if shutil.which("tshark") else None


@functools.cache
def no_guesses():
    """The options by which no protocol is guessed from the first bytes of a payload.

    `ethertype` is one that is guessed. It also reads what Ethernet carries, so only its guess is left out.
    """
    decodes = (line.split("\t") for line in tshark("-G", "heuristic-decodes").splitlines())
    guessed = [name for over, name, *_ in decodes if over == "infiniband.payload" and name != "ethertype"]
    return [f"--disable-protocol={name}" for name in guessed] + ["--disable-heuristic=eth_over_ib"]


def value(name, text):
    """What tshark printed of a field: of a packet's field the number, of `rest` and of what is beside it the text."""
    if name == "rest":
        return text or "-"
    if not text or name not in NAMES:
        return text or None
    told, *others = dict.fromkeys(text.split("|"))
    if others:
        return text
    return int(told, 16) if name in BYTES else int(BOOLEANS.get(told, told), 0)


def frames_read(file, written=None):
    """What tshark reads in each frame of a capture, by the names of `NAMES` and `OF_FRAME`; None stands for nothing.

    Where it is to be written, tshark writes the capture once more, in the format of the file's name.
    """
    names = dict.fromkeys(OF_FRAME) | NAMES
    options = [*no_guesses(), "-o", "ip.check_checksum:TRUE", "-T", "fields", "-E", "aggregator=|"]
    options += [f"-e{called or name}" for name, called in names.items()]
    if written:
        options += ["-w", written, "-F", written.suffix[1:], "-P"]
    for row in tshark("-n", "-r", file, *options).splitlines():
        yield {name: value(name, text) for name, text in zip(names, row.split("\t"), strict=True)}
