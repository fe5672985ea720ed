"""Machines that are about one rule each, of the checker or of costs, and bundles that are."""
from .bundle import MACHINE_TEXT, VERSION

MODE = f"@ modes/m/config/m.yaml\n{VERSION}\n"  # the text of a mode comes after the machine's
IN_MODE = f"modes: m\n{MODE}"

# Where balls go
TRACK = "ball_switches: '', mechanical_eject: yes"
TARGETS = [("e", "d"), ("e", "e"), ("e", "playfield"), ("playfield", "e"), ("f", "d")]
ROUTES = [f"ball_devices: {{d: {{{TRACK}, tags: trough}}}}", "ball_devices: {d: {ball_switches: ''}}"]
ROUTES += [
    f"ball_devices:\n  d: {{{TRACK}, eject_targets: {d}}}\n  e: {{{TRACK}, eject_targets: {e}}}" for d, e in TARGETS
]
BALL_SWITCHES = [("s s", "t"), ("s", "s"), ("s", "t"), ("s t", "t"), ("u", "u")]
ROUTES += [
    f"switches: {{s: {{}}, t: {{}}}}\nball_devices:\n  d: {{ball_switches: {d}, mechanical_eject: yes}}\n"
    f"  e: {{ball_switches: {e}, mechanical_eject: yes}}"
    for d, e in BALL_SWITCHES
]

# Shots of groups
SHOTS = "shots: {x: {profile: p}, y: {}, z: {}}\nshot_profiles: {p: {states: [{name: a}]}}\n"
TAKEN = ["x", "y", "x y", "y z", "y y", "y w"]
GROUPS = [f"{SHOTS}shot_groups: {{g: {{shots: {shots}}}, h: {{shots: z}}}}" for shots in TAKEN]
GROUPS += [f"{SHOTS}{IN_MODE}shot_groups: {{g: {{shots: {shots}}}}}" for shots in "yw"]

# The ends of timers: direction, start, end
ENDS = ["down", "down,1", "up,0,0", "up,5,5", "up,4,5", "up,6,5", "down,4,5", "down,5,4", "down,5,5", "up,1"]
SETTINGS = ("direction", "start_value", "end_value")


def timer(end: str) -> str:
    written = ", ".join(f"{setting}: {value}" for setting, value in zip(SETTINGS, end.split(",")))
    return f"{IN_MODE}timers: {{t: {{{written}}}}}"


# What coils may do
COILS = ["max_pulse_ms: 9", "max_pulse_ms: 10", "max_pulse_ms: 30", "max_pulse_power: 0.5", "allow_enable: yes"]
COILS += ["default_hold_power: 0.5", "default_hold_power: 0.5, max_hold_power: 0.25", "default_hold_power: 0"]
ACTIONS = ["pulse", "enable", "pulse, pulse_ms: 30", "disable, pulse_ms: 31", "pulse, pulse_power: 0.6"]
ACTIONS += ["enable, hold_power: 0.6", "enable, hold_power: 0.5"]
DRIVES = [
    f"coils: {{k: {{{it}}}}}\ncoil_player: {{a: {{k: {{action: {action}}}}}}}" for it in COILS for action in ACTIONS
]
FLIPPER = "switches: {s: {}}\nflippers: {f: {main_coil: k, hold_coil: k, activation_switch: s}}"
DRIVES += [f"coils: {{k: {{{it}}}}}\n{FLIPPER}" for it in COILS]

# What may be posted and set
EVENTS = "sw_start ball_started game_ended mode_m_started mode_m_will_stop mode_n_started".split()
NAMES = [f"modes: m\nevent_player: {{a: {event}}}" for event in EVENTS]
NAMES += [f"variable_player: {{a: {{{it}: 1}}}}" for it in "ball number added turn_ended score".split()]

# What sections may hold
STATES = ["[]", "[{name: a}, {name: a}]", "[{name: a}, {name: b}]", "[{}]", "[{name: a, show: b}]", "[a]", "''"]
STEPS = ["[[]]", "[a, []]", "[a, '']", "[a, [b, c]]", "''", "[]"]
MODES = ["machine", "a a", "[a, b, a]", "m\nmode: {}"]
OF_MODES = ["switches: {}", "game:", "modes: n", "mode: {prio: 1}", "mode:\ntimers: {t: {}}"]
SECTIONS = [
    *(f"shot_profiles: {{p: {{states: {states}}}}}" for states in STATES),
    *(f"sequences: {{q: {{events: {steps}}}}}" for steps in STEPS),
    *(f"modes: {modes}" for modes in MODES),
    *(f"{IN_MODE}{text}" for text in OF_MODES),
    *(f"counters: {{c: {{count_events: a}}}}\n{IN_MODE}counters: {{{name}: {{count_events: a}}}}" for name in "cd"),
    *("shot_profiles: {default: {states: [{name: a}]}}", "coils: {playfield: {}}", "shots: {playfield: {}}"),
    *("counters: {c: {}}", "counters: {c: {starting_count: 1}}", "flippers: {f: {}}", "autofire_coils: {a: {coil: c}}"),
    *("mode: {}", "timers: {}", f"{MODE}mode: {{}}", f"{IN_MODE}mode: {{}}\n{MODE}mode: {{}}"),
]

# Costs
HELD = "coils: {k: {allow_enable: yes}, l: {allow_enable: yes}}\n"
STARTS = ["", ", start_events: ''", ", start_events: ball_ending a", ", start_events: [ball_ending, ball_ending]"]
COSTS = [
    f"{HELD}{IN_MODE}coil_player: {{a: {{k: enable}}, b: {{k: enable}}, c: {{l: enable}}, d: {{k: pulse}}}}",
    "game: {max_players: 2}\nvariable_player:\n  game_ended: {a: 1, b: 2}\n  a{current_player.c==1}: {d: 3}",
    *(f"game:\n{IN_MODE}mode: {{use_wait_queue: yes, stop_events: a{starts}}}" for starts in STARTS),
    "event_player: {a: [b, c], b: d, d: [c, b], c: ''}",
    "event_player: {a: b, b: c, c: b}",
    "event_player: {a: a}",
]

MACHINES = [*ROUTES, *GROUPS, *map(timer, ENDS), *DRIVES, *NAMES, *SECTIONS, *COSTS]

# The lines of a bundle
FRONT = f"@ {MACHINE_TEXT}\n"
VERSIONS = [f"{VERSION} ", f"{VERSION}\t ", f" {VERSION}", f"{VERSION}\r", f"{VERSION} \r", f"{VERSION}x"]
VERSIONS += ["# config_version=6", "#config_version=5", ""]
ATS = ["@\t{}", "@  {}  ", "@{}", "@", "@ ", "@ {}\r", "#\n@ {}", "@ x\n@ {}", "@ {} \r", "@ {}x", "\n@ {}"]
ATS += ["@ {}\n@ {}", f"@ {{}}\n{VERSION}\n@ {{}}"]
BUNDLES = [
    *(f"{FRONT}{version}\nlights:\n" for version in VERSIONS),
    *(f"{at.format(MACHINE_TEXT, MACHINE_TEXT)}\n{VERSION}\nlights:\n" for at in ATS),
    *(f"{FRONT}{VERSION}{end}" for end in ("", "\n", "\r", "\r\n", "\n@", "\n@ x", "\n\n")),
    FRONT + f"{VERSION}\nmodes: a b\nlights:\n"
    + "".join(f"@ modes/{it}/config/{it}.yaml\n{VERSION}\nshows:\nlights:\n" for it in "cba"),
]
