"""How often each thing has to come up in a comparison."""
from . import cascades
from .compare import CASCADES, Found

# About how often things come up with 100 machines. They are too rare if they come up less than a fifth of that.
SHARES: dict[float, str] = {
    100: """check: yes | check: no | play | damaged bundle | line: event | line: switch active | line: switch inactive
        | line: balls | line: coil pulse | ball device, alarm | ball device, list 0 | ball not awaited | a game""",
    50: """verify: yes | error 3 Yaml | error 5 UnknownSetting | ball device, list 1 | ball device, list 2
        | ball device, list 3 | ball device, list 4 | ball device, list 5 | ball device, list 6 | condition false
        | line: refused BadLine | line: refused NoSuchSwitch | line: refused Backwards | play: refused""",
    20: """fault 1 Name | error 6 BadValue | Yaml Indent | Yaml NotInSubset | accrual, list 0 | accrual, list 1
        | counter, list 0 | counter, list 1 | sequence, list 0 | sequence, list 1 | flipper, list 0 | flipper, list 1
        | autofire, list 0 | timer, list 0 | timer, list 3 | timer, alarm | shot hit | group hit | kept stop
        | condition true | a turn of another player | line: skip pulse | verify: fault 10 Certificate Line
        | damaged bundle: yes | note absent | section accruals | section autofire_coils | section ball_devices
        | section coil_player | section coils | section counters | section event_player | section flippers
        | section game | section machine | section mode | section sequences | section shot_groups
        | section shot_profiles | section shots | section switches | section timers | section variable_player""",
    10: """error 4 UnknownSection | accrual, list 2 | counter, list 2 | sequence, list 2 | timer, list 4 | ball awaited
        | a second game | another turn | line: coil enable | line: coil disable | line: final | line: player
        | line: refused TooLate | line: off | note skipped | note unlisted | verify: fault 10 Certificate Short
        | verify: fault 10 Certificate Bound | verify: fault 10 Certificate Events | verify: fault 10 Certificate Switch
        | verify: fault 10 Certificate Switches | folder""",
    5: """error 1 Bundle | error 2 Version | error 7 Missing | Yaml DuplicateKey | Yaml Flow | Yaml NotUtf8
        | line: skip enable | line: skip disable | damaged bundle: verify | ball held by 1 | the last hold
        | verify: yes, of version 1""",
    2: """error 8 Duplicate | error 9 Limit | fault 2 PulseLimit | fault 3 PowerLimit | fault 4 HoldNotAllowed
        | fault 5 TimerAtEnd | fault 6 BallRoute | fault 7 Limit | fault 8 Cycle | fault 9 Bound | Yaml Quote | Yaml Tab
        | timer, list 1 | timer, list 2 | release | verify: fault 9 | Yaml TooDeep | ball held by 2 | a hold less
        | kept stop of a holder""",
    0.5: """Yaml TooLong | limit of switches | limit of coils | limit of variables""",
    0.05: """limit of events | limit of bindings | limit of rows""",
}
# The same, of ball saves and multiballs.
SAVE_SHARES: dict[float, str] = {
    20: """section ball_saves | section multiballs | ball save, list 0 | ball save, enable while not active
        | multiball, start while not active | multiball, start while not active, without a ball | some balls wanted
        | four players | the first of two troughs""",
    10: """ball save, list 1 | ball save, list 2 | ball save of a mode, list 0 | ball save, enable while active
        | multiball, list 0 | multiball, start while active | one ball more | some balls more
        | dearest of a drain: the last ball""",
    5: """ball save, alarm | ball save of a mode, list 1 | ball save of a mode, list 2 | ball save of a mode, alarm
        | ball save, disable while active | ball save, disable while not active | multiball, list 1
        | multiball of a mode, list 0 | no ball more | a mode ends a ball save | a mode ends a multiball
        | a ball drains in a multiball | a save in a multiball | a save with more to come | the last of some saves
        | a save where two are active | the third ball of a player | error of active_time | error of balls_to_save
        | error of ball_count""",
    2: """multiball of a mode, list 1 | two multiballs end | many balls wanted | more balls wanted than are remembered
        | dearest of a drain: a save | dearest of a drain: ends | bound of a save's alarm""",
    1: """bound, had a save an end | cycle of a ball_save | cycle of a multiball""",
    0.5: """a save without a trough | cycle of a balldevice""",
}


def table(found: Found) -> str:
    """What came up, and how often."""
    lines = [f"{count:9} {what}" for what, count in sorted(found.counts.items())]
    differences = f"{len(found.differences)} differ" if found.differences else "none differs"
    last = f"{found.counts['answers']} answers, {differences}; the slowest took {found.slowest:.3f} s"
    return "\n".join([*lines, last])


def rare(found: Found, count: int) -> list[str]:
    """What came up too rarely with so many machines."""
    least = {"machines": count}
    least |= {f"cascades: {kind}": CASCADES * count // many for kind, many in cascades.KINDS.items()}
    for shares in (SHARES, SAVE_SHARES):
        for share, whats in shares.items():
            least |= {" ".join(what.split()): int(share * count / 500) for what in whats.split("|")}
    return [f"{found.counts[what]} {what}, of {few}" for what, few in least.items() if found.counts[what] < few]
