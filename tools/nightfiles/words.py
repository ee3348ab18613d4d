"""What answers and registers mean, in words. Names are those of OIF-CMIS-05.3; lanes count from 0."""

from typing import Callable, NamedTuple

from .pages import BANK_SELECT, LOWER, PAGES

# ---- answers ----

DONE = 0
MALFORMED = 9
REFUSALS = {
    1: "image is not of the module's length",
    2: "flat memory (bit 7 of lower byte 2 is 1)",
    3: "state is not sound",
    4: "access of no bytes or of too many, or past 127 or 255",
    5: "buffer shorter than what goes into it",
    6: "work step on an idle lane or hardware event on an unused lane",
    7: "lane is in progress or its path has such a lane",
    8: "lane above 7 or flag byte not listed",
    MALFORMED: "night file is malformed",
    10: "limits of received power are back to front",
}
# The same where the record says more.
REFUSALS_OF = {
    ("write", 4): "count 0 or above 8, or past 127 or 255",
    ("read", 4): "count 0 or above 128, or past 127 or 255",
    ("work", 6): "lane is idle",
    ("hardware", 6): "lane is unused",
    ("work", 8): "lane above 7",
    ("hardware", 8): "lane above 7",
    ("condition", 8): "flag byte not listed",
    ("sample", 8): "lane above 7",
}


def refusal_words(number, kind=None):
    """Why something was refused; with the kind of a record, why that was."""
    return REFUSALS_OF.get((kind, number)) or REFUSALS.get(number, "not a number of the list")


def answer_words(number, kind):
    return "done" if number == DONE else "refused: " + refusal_words(number, kind)


# ---- lanes and codes ----


def runs(numbers):
    """Numbers in rising order, those that follow each other as one run."""
    found = []
    for number in numbers:
        if found and found[-1][1] == number - 1:
            found[-1][1] = number
        else:
            found.append([number, number])
    return ", ".join("%d" % first if first == last else "%d-%d" % (first, last) for first, last in found)


def several(noun, numbers):
    return "%s%s %s" % (noun, "s" if len(numbers) > 1 else "", runs(numbers))


def lanes(mask):
    """The lanes whose bit is 1."""
    chosen = [lane for lane in range(8) if mask >> lane & 1]
    return several("lane", chosen) if chosen else "no lane"


def alike(values):
    """Each value with the numbers that have it, in the order of their first ones."""
    having = {}
    for number, value in values:
        having.setdefault(value, []).append(number)
    return having.items()


def by_lane(values):
    return ["%s on %s" % (value, several("lane", chosen)) for value, chosen in alike(values)]


def power(value):
    return "%d (%d.%d uW)" % (value, value // 10, value % 10)


MODULE_STATES = {1: "ModuleLowPwr", 2: "ModulePwrUp", 3: "ModuleReady", 4: "ModulePwrDn", 5: "ModuleFault"}
DP_STATES = {
    1: "DPDeactivated",
    2: "DPInit",
    3: "DPDeinit",
    4: "DPActivated",
    5: "DPTxTurnOn",
    6: "DPTxTurnOff",
    7: "DPInitialized",
}
CONFIG_STATUS = {
    0: "undefined",
    1: "success",
    2: "rejected",
    3: "rejected (invalid Application)",
    4: "rejected (invalid data path)",
    5: "rejected (invalid signal integrity settings)",
    6: "rejected (lanes in use)",
    7: "rejected (part of a data path)",
    12: "in progress",
    13: "custom Dh",
    14: "custom Eh",
    15: "custom Fh",
}
# 11h:134-153, and their masks at 10h:213-232. The standard has "Flag" or "Mask" in these names.
FLAGS = (
    "DP State Changed",
    "Failure Tx",
    "LOS Tx",
    "CDR LOL Tx",
    "Adaptive Input Eq Fail Tx",
    "Optical Power High Alarm Tx",
    "Optical Power Low Alarm Tx",
    "Optical Power High Warning Tx",
    "Optical Power Low Warning Tx",
    "Laser Bias High Alarm Tx",
    "Laser Bias Low Alarm Tx",
    "Laser Bias High Warning Tx",
    "Laser Bias Low Warning Tx",
    "LOS Rx",
    "CDR LOL Rx",
    "Optical Power High Alarm Rx",
    "Optical Power Low Alarm Rx",
    "Optical Power High Warning Rx",
    "Optical Power Low Warning Rx",
    "Output Status Changed Rx",
)
LIMITS = ("high alarm", "low alarm", "high warning", "low warning")
# Lower 8 and its masks at lower 31, by bit.
MODULE_FLAGS = {
    7: "CdbCmdComplete%s2",
    6: "CdbCmdComplete%s1",
    2: "DataPathFirmwareError%s",
    1: "ModuleFirmwareError%s",
    0: "ModuleStateChanged%s",
}
# Lower 26, by bit.
MODULE_CONTROLS = {
    7: "BankBroadcastEnable",
    6: "LowPwrAllowRequestHW",
    5: "SquelchMethodSelect",
    4: "LowPwrRequestSW",
    3: "SoftwareReset",
    2: "custom bit 2",
    1: "custom bit 1",
    0: "custom bit 0",
}
COMMANDS = {
    0x0000: "Query Status",
    0x0040: "Module Features",
    0x0041: "Firmware Management Features",
    0x0100: "Get Firmware Info",
}
# CdbStatus, once a command has been dealt with.
COMMAND_STATUS = {
    0x01: "success",
    0x40: "failed",
    0x41: "failed (unknown command)",
    0x42: "failed (parameter)",
    0x45: "failed (wrong check code)",
}


# ---- what a register's bytes say ----
#
# Each of these takes the bytes of a register that were read, by their offset in it, and gives a list of things said,
# which may be none. A read may begin or end in the middle.


def lane_bits(data):
    return [lanes(data[0])]


def lane_nibbles(names=None):
    """A nibble a lane, the even lane's the low one: codes with names, or numbers."""

    def words(data):
        values = [(2 * at + half, byte >> 4 * half & 15) for at, byte in data.items() for half in (0, 1)]
        if names is None:
            return by_lane(values)
        return by_lane((lane, names.get(code, "reserved code %d" % code)) for lane, code in values)

    return words


def module_state(data):
    state = data[0] >> 1 & 7
    interrupt = "no interrupt" if data[0] & 1 else "interrupt asserted"
    return [MODULE_STATES.get(state, "reserved code %d" % state), interrupt]


def memory_model(data):
    model = "flat memory" if data[0] & 0x80 else "paged memory"
    immediate = "ApplyImmediate does nothing" if data[0] & 0x40 else "ApplyImmediate acts"
    return [model, immediate]


def named_bits(names):
    """The bits of a byte that are 1."""

    def words(data):
        bits = [bit for bit in range(7, -1, -1) if data[0] >> bit & 1]
        return [names.get(bit, "reserved bit %d" % bit) for bit in bits]

    return words


def module_flags(word):
    """Lower 8 or 31."""
    return named_bits({bit: name % word for bit, name in MODULE_FLAGS.items()})


def command_status(data):
    status = data[0]
    if status & 0x80:
        return ["busy (%02Xh)" % status]
    return [COMMAND_STATUS.get(status, "code %02Xh" % status)] if status else []


def firmware_version(data):
    parts = ["%s %d" % (name, data[at]) for at, name in enumerate(("major", "minor")) if data.get(at)]
    return ["%d.%d" % (data[0], data[1])] if parts and len(data) == 2 else parts


def high_byte_first(value_words):
    """A number of two bytes; of one that was read in part, which half it is."""

    def words(data):
        if len(data) == 2:
            return [value_words(data[0] << 8 | data[1])]
        return ["high byte %02Xh" % data[0] if 0 in data else "low byte %02Xh" % data[1]]

    return words


def command_number(value):
    return "%04Xh (%s)" % (value, COMMANDS.get(value, "not known here"))


def byte_count(value):
    return "%d byte%s" % (value, "" if value == 1 else "s")


def length(data):
    return [byte_count(data[0])]


def check_code(data):
    return ["%02Xh" % data[0]]


def selection(data):
    said = []
    if 0 in data:
        said.append("bank %d" % data[0])
    if 1 in data:
        page = data[1]
        hidden = PAGES.get(page) and data.get(0)
        said.append("page %02Xh" % page + (" (page 00h answers, since the bank is not 0)" if hidden else ""))
    return said


def raised(data):
    """Flag bytes, or their masks."""
    return ["%s on %s" % (FLAGS[at], lanes(byte)) for at, byte in data.items() if byte] or ["none"]


def dp_configs(data):
    def words(byte):
        app_sel, path, explicit = byte >> 4, byte >> 1 & 7, byte & 1
        return "AppSel %d%s DataPathID %d ExplicitControl %d" % (app_sel, "" if app_sel else " (none)", path, explicit)

    return by_lane((lane, words(byte)) for lane, byte in data.items())


def whole(data, size):
    """The fields of `size` bytes that were read whole, and the numbers of those that were read in part."""
    numbers = sorted({at // size for at in data})
    places = {n: range(size * n, size * (n + 1)) for n in numbers}
    read = {n: bytes(data[at] for at in places[n]) for n in numbers if all(at in data for at in places[n])}
    return read, [n for n in numbers if n not in read]


def received_powers(data):
    read, cut = whole(data, 2)
    said = by_lane((lane, power(int.from_bytes(pair, "big"))) for lane, pair in read.items())
    return said + ["half of a value on lane %d" % lane for lane in cut]


def power_limits(data):
    read, cut = whole(data, 2)
    said = ["%s %s" % (LIMITS[n], power(int.from_bytes(pair, "big"))) for n, pair in read.items()]
    return said + ["half of the %s" % LIMITS[n] for n in cut]


def descriptors(first):
    """Application descriptors of four bytes, the first one's number given."""

    def application(descriptor):
        host, media, counts, options = descriptor
        if host == 0xFF:
            return "end of the list"
        if not 1 <= counts >> 4 <= 8:
            return "none (host lane count %d)" % (counts >> 4)
        size = "%d host lane%s beginning on %s" % (counts >> 4, "s" if counts >> 4 > 1 else "", lanes(options))
        return "%s (host interface %02Xh, media interface %02Xh)" % (size, host, media)

    def words(data):
        read, cut = whole(data, 4)
        found = alike((first + n, application(descriptor)) for n, descriptor in read.items())
        said = ["%s: %s" % (several("AppSel", chosen), value) for value, chosen in found]
        return said + ["AppSel %d: read in part" % (first + n) for n in cut]

    return words


def input_limits(data):
    codes = [code for code in range(4) if data[0] >> 4 + code & 1]
    return ["input EQ up to %d" % (data[0] & 15), several("amplitude code", codes) if codes else "no amplitude code"]


def cursor_limits(data):
    return ["pre-cursor up to %d" % (data[0] & 15), "post-cursor up to %d" % (data[0] >> 4)]


# ---- the registers ----


class Register(NamedTuple):
    first: int
    last: int
    name: str
    words: Callable


def control_set(base, name):
    """The settings of a control set, staged or active, from its first DPConfig byte on."""
    rows = (
        (0, 7, "DPConfig", dp_configs),
        (8, 8, "AdaptiveInputEqEnableTx", lane_bits),
        (11, 14, "HostControlledInputEqTargetTx", lane_nibbles()),
        (15, 15, "CDREnableTx", lane_bits),
        (16, 16, "CDREnableRx", lane_bits),
        (17, 20, "OutputEqPreCursorTargetRx", lane_nibbles()),
        (21, 24, "OutputEqPostCursorTargetRx", lane_nibbles()),
        (25, 28, "OutputAmplitudeTargetRx", lane_nibbles()),
    )
    return tuple(Register(base + first, base + last, name + " " + field, words) for first, last, field, words in rows)


REGISTERS = {
    LOWER: (
        Register(2, 2, "MemoryModel and SteppedConfigOnly", memory_model),
        Register(3, 3, "ModuleState", module_state),
        Register(8, 8, "module flags", module_flags("Flag")),
        Register(26, 26, "module controls", named_bits(MODULE_CONTROLS)),
        Register(31, 31, "module masks", module_flags("Mask")),
        Register(37, 37, "CdbStatus1", command_status),
        Register(39, 40, "ModuleActiveFirmware", firmware_version),
        Register(86, 117, "Application descriptors", descriptors(1)),
        Register(BANK_SELECT, BANK_SELECT + 1, "BankSelect and PageSelect", selection),
    ),
    0x01: (
        Register(153, 153, "limits of settings", input_limits),
        Register(154, 154, "limits of settings", cursor_limits),
        Register(223, 250, "Application descriptors", descriptors(9)),
    ),
    0x02: (Register(192, 199, "limits of received power in 0.1 uW", power_limits),),
    0x10: (
        Register(128, 128, "DPDeinit", lane_bits),
        Register(129, 129, "InputPolarityFlipTx", lane_bits),
        Register(130, 130, "OutputDisableTx", lane_bits),
        Register(131, 131, "AutoSquelchDisableTx", lane_bits),
        Register(132, 132, "OutputSquelchForceTx", lane_bits),
        Register(137, 137, "OutputPolarityFlipRx", lane_bits),
        Register(138, 138, "OutputDisableRx", lane_bits),
        Register(139, 139, "AutoSquelchDisableRx", lane_bits),
        *control_set(145, "staged"),
        *control_set(180, "staged set 1"),
        Register(213, 232, "masks", raised),
    ),
    0x11: (
        Register(128, 131, "DPState", lane_nibbles(DP_STATES)),
        Register(134, 153, "flags", raised),
        Register(186, 201, "received power in 0.1 uW", received_powers),
        Register(202, 205, "ConfigStatus", lane_nibbles(CONFIG_STATUS)),
        *control_set(206, "active"),
        Register(235, 235, "DPInitPending", lane_bits),
    ),
    0x9F: (
        Register(128, 129, "CMDID", high_byte_first(command_number)),
        Register(130, 131, "EPLLength", high_byte_first(byte_count)),
        Register(132, 132, "LPLLength", length),
        Register(133, 133, "CdbChkCode", check_code),
        Register(134, 134, "RPLLength", length),
        Register(135, 135, "RPLChkCode", check_code),
    ),
}


def register_words(page, address, data):
    """What the bytes of a read say: for each register it touches, addresses and name, and the things said. A register
    of which nothing is to be said is left out."""
    for register in REGISTERS.get(page, ()):
        first, last = max(register.first, address), min(register.last, address + len(data) - 1)
        if first <= last:
            read = {at - register.first: data[at - address] for at in range(first, last + 1)}
            place = "%d" % first if first == last else "%d-%d" % (first, last)
            said = register.words(read)
            if said:
                yield "%s %s" % (place, register.name), said
