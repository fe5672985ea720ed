"""The table of MPF's features: what `adopt` does with each. ADOPTED.md and the table of docs/from_mpf.md come from it.

`names` are sections, settings as `section.setting`, and idioms. How common a feature is, and what it does in MPF, was
written from memory."""
from dataclasses import dataclass

WRITTEN = "written"  # read here as it is
REWRITTEN = "rewritten"  # by adopt
WEAKENED = "weakened"  # left out or said otherwise: a rule does less, or at other times
LOST = "lost"  # left out: a rule is gone
UNSEEN = "unseen"  # left out: for the eyes and ears, or for other tools; no rule changes
EFFECTS = (WRITTEN, REWRITTEN, WEAKENED, LOST, UNSEEN)
NEARLY_ALL, MANY, SOME, FEW = "nearly all", "many", "some", "few"


@dataclass(frozen=True)
class Feature:
    """`what` is how it is written in MPF, and `here` what comes of it here."""

    names: tuple[str, ...]
    common: str
    effect: str
    here: str
    what: str = ""

    @property
    def title(self) -> str:
        return self.what or ", ".join(f"`{it}`" for it in self.names)


def row(names: str, common: str, effect: str, here: str, what: str = "") -> Feature:
    return Feature(tuple(names.split("; ")), common, effect, here, what)


FILES = (
    row("config", NEARLY_ALL, REWRITTEN, "the files are joined", "`config:` with a list of files"),
    row("letter case", SOME, REWRITTEN, "the file is found", "a folder or file with other small or capital letters"),
    row("comments", NEARLY_ALL, WRITTEN, "they stay with what they belong to; if that is left out, so are they",
        "comments"),
    row("section twice", SOME, REWRITTEN, "the entries are joined", "a section in several files"),
    row("entry twice", FEW, LOST, "the first one counts; of a coil's powers and times the lower one",
        "an entry or a setting twice"),
    row("missing file", FEW, LOST, "left out", "a file or mode that is listed and not there"),
    row("not YAML", FEW, LOST, "left out", "a line that is no YAML"),
    row("not closed", FEW, WEAKENED, "read as if it were closed at the line's end", "a bracket that nothing closes"),
    row("lax YAML", SOME, REWRITTEN, "on one line, or at its place",
        "values of several lines, `\\|` and `>`, `&name` and `*name`, `---`"),
    row("unknown section", FEW, LOST, "left out", "a section that is not in this table"),
    row("unknown setting", FEW, WEAKENED, "left out", "a setting that is not in this table"),
    row("section of the machine in a mode", FEW, WEAKENED, "in the text of the machine",
        "`switches`, `coils`, `flippers` and others in a mode"),
    row("other tools", FEW, UNSEEN, "left out",
        "what is for other tools, such as `label`: if its entry is rewritten, or if it is a mapping"),
    row("bad value", FEW, LOST, "left out", "a value that its setting does not take"),
    row("bad name", FEW, LOST, "left out",
        "a name with other signs than letters, digits, `_`, `-` and `.`, or with more than 64 of them"),
    row("missing setting", FEW, LOST, "the entry is left out", "an entry without a setting that it needs"),
    row("name not there", FEW, LOST, "left out", "a coil, switch, shot, profile or device that nothing defines"),
    row("refused", FEW, LOST, "left out", "what `pinball check` refuses for another reason, as a cycle of events"),
    row("number out of range", FEW, WEAKENED, "the nearest number", "a number out of range"),
    row("too many", FEW, LOST, "left out", "more than a limit, such as 64 modes"),
    row("other spelling", SOME, REWRITTEN, "written as it is read here",
        "`type: nc`, `debounce: no`, `10_000`, `2 sec`"),
    row("settings.x", MANY, REWRITTEN, "its default number from the section `settings`", "`settings.x` as a value"),
    row("formula", SOME, LOST, "left out", "a value that is worked out, such as `current_player.x` of a timer"),
)
SECTIONS_UNSEEN = (
    row("lights; light_player; light_settings; light_rings; light_stripes; leds; led_player; led_settings; led_rings; "
        "matrix_lights; gis; flashers; flasher_player; named_colors; color_correction; info_lights; neopixels",
        NEARLY_ALL,
        UNSEEN, "left out", "lights and LEDs: `lights`, `leds`, `light_player`, .."),
    row("shows; show_player; show_pools; show_tokens; show_config; blinkenlights; blinkenlight_player; file_shows",
        NEARLY_ALL, UNSEEN, "left out", "shows: `shows`, `show_player`, `show_pools`"),
    row("slides; slide_player; widgets; widget_player; widget_styles; displays; window; images; image_pools; videos; "
        "video_pools; animations; bitmap_fonts; fonts; text_strings; text_ui; transitions; kivy_config; mc_scriptlets; "
        "mc_custom_code; dmds; rgb_dmds; rpi_dmd; virtual_segment_displays; display_light_player; slide_pools",
        NEARLY_ALL,
        UNSEEN, "left out", "displays: `slides`, `slide_player`, `widgets`, `displays`, `images`, .."),
    row("segment_displays; segment_display_player; light_segment_displays; neoseg_displays; score_queues; "
        "score_queue_player", SOME, UNSEEN, "left out", "segment displays"),
    row("sounds; sound_player; sound_pools; sound_system; sound_loop_player; sound_loop_sets; sound_ducking; tracks; "
        "track_player; playlists; playlist_player; hardware_sound_systems; hardware_sound_player; assets", MANY, UNSEEN,
        "left out", "sounds: `sounds`, `sound_player`, `sound_system`, .."),
    row("hardware; fast; opp; p_roc; proc; pd_led_boards; pd_leds; pinproc; spike; spike_node; spi_bit_bang; lisy; "
        "snux; "
        "system11; system11_overlay; virtual_pinball; vpe; pkone; pinotaur; smart_virtual; smartmatrix; mma8451; "
        "mypinballs; "
        "open_pixel_control; openpixel; osc; i2c; smbus2; raspberry_pi; rpi; servo_controllers; pololu_maestro; "
        "pololu_tic; "
        "tic_stepper_settings; step_stick; trinamics_steprocker; opp_coils; arduino; light_numbers; psus; dmd; "
        "fadecandy; "
        "rosc; stern_spike; digital_score_reels; accelerometers; lights_hw; coils_hw", NEARLY_ALL, UNSEEN,
        "left out", "boards: `hardware`, `fast`, `opp`, `p_roc`, .."),
    row("mpf; mpf-mc; logging; bcp; keyboard; playfields; virtual_platform_start_active_switches; plugins; "
        "twitch_client; "
        "auditor; service; switch_player; mc_config; gmc; vpx; osc_player; info; assets_config; window_config; "
        "debugger; "
        "mpf_gmc; physical_dmds; physical_rgb_dmds; custom_game; ball_search", NEARLY_ALL, UNSEEN, "left out",
        "other programs and tests: `mpf`, `mpf-mc`, `logging`, `bcp`, `keyboard`, .."),
)
SECTIONS_LOST = (
    row("high_score", MANY, LOST, "left out: scores are not kept after a game"),
    row("credits", SOME, LOST, "left out: each start is free"),
    row("achievements; achievement_groups", SOME, LOST, "left out"),
    row("multiball_locks; ball_locks", SOME, LOST, "left out: a device with a coil ejects what comes in"),
    row("machine_vars", SOME, LOST, "left out: only players have variables"),
    row("magnets", FEW, LOST, "left out: nothing drives the coil, unless a `coil_player` does"),
    row("score_reels; score_reel_groups", FEW, LOST, "left out"),
    row("servos; steppers; motors; digital_outputs; servo_controller", FEW, LOST, "left out",
        "`servos`, `steppers`, `motors`, `digital_outputs`"),
    row("queue_event_player; queue_relay_player; blocking", SOME, LOST, "left out: no event waits",
        "`queue_event_player`, `queue_relay_player`"),
    row("mode_settings; bonus", MANY, LOST, "left out: MPF's own bonus is not carried out", "`mode_settings`"),
    row("scriptlets; custom_code; mode.code", SOME, LOST, "left out: Python is not run",
        "`scriptlets`, `custom_code`, `code` of a mode"),
    row("ball_routings; playfield_transfers", FEW, LOST, "left out", "`ball_routings`, `playfield_transfers`"),
    row("state_machine_player; timed_shots; device; devices", FEW, LOST, "left out", "`state_machine_player`"),
    row("dual_wound_coils", SOME, REWRITTEN, "`main_coil` and `hold_coil` of each flipper that names it"),
    row("logic_blocks", FEW, REWRITTEN, "`counters`, `accruals` and `sequences` as sections"),
    row("settings", MANY, UNSEEN, "left out; if a value asks for one, its default number is written"),
    row("player_vars", MANY, REWRITTEN, "a `variable_player` that sets it at the player's first ball"),
    row("player_vars of a text", FEW, LOST, "left out: a variable is a whole number", "a variable that is a text"),
)
REWRITES = (
    row("a: b|2s", NEARLY_ALL, REWRITTEN,
        "a timer. A second `a` before the time is up restarts it; in MPF both come",
        "`a: b\\|2s`"),
    row("reset_events: {a: 1s}", SOME, REWRITTEN, "a timer, which a second `a` restarts",
        "`reset_events: {a: 1s}`, `start_events: a\\|1s`"),
    row("events_when_activated: a|1s", SOME, REWRITTEN, "a timer, which a second `a` restarts",
        "`events_when_activated: a\\|1s`"),
    row("player_x{value}", MANY, REWRITTEN, "`player_x{current_player.x ..}`", "`player_x{value >= 5}`"),
    row("a{x and y}", MANY, REWRITTEN, "an event leads to another, one comparison at each",
        "conditions with `and`, `or`, `not`"),
    row("a{current_player.x}", MANY, REWRITTEN, "a comparison with 0",
        "`a{current_player.x}`, `a{not current_player.x}`"),
    row("a{mode.m.active}", SOME, REWRITTEN, "the entry in the text of that mode", "`a{mode.m.active}: b`"),
    row("other conditions", MANY, LOST, "the entry is left out",
        "other conditions: on counters, on `machine`, on what comes with the event"),
    row("timer_t_tick{ticks==3}", FEW, REWRITTEN, "a second timer that ends there", "`timer_t_tick{ticks==3}: a`"),
    row("a: b{x}", SOME, REWRITTEN, "an entry `a{x}: b`", "`a: b{current_player.x==1}`"),
    row("a: {b: {priority: 5}}", SOME, WEAKENED, "`a: b`: a mode has one priority for its entries"),
    row("(name)_hit", FEW, LOST, "left out", "names that are worked out, such as `(name)_hit`"),
    row("a.5: b", SOME, WEAKENED, "`a: b`, without the priority", "`a.5: b`"),
    row("lists of events", NEARLY_ALL, REWRITTEN, "a list of names", "all forms of a list of posted events"),
    row("reserved event", FEW, LOST, "left out: only the game posts it",
        "`a: ball_ending` and other events of the game"),
    row("system events", MANY, LOST, "written, but nothing posts the event",
        "`init_done`, `reset_complete` and others as handled events"),
    row("events of what is left out", MANY, LOST, "written, but nothing posts the event",
        "an event of a part that is left out"),
    row("renamed events", SOME, REWRITTEN, "the name that the event has here", "`balldevice_x_ball_entered`"),
    row("sw_TAG_active", SOME, REWRITTEN, "`sw_TAG`, or `SWITCH_inactive` of each switch",
        "`sw_TAG_active`, `sw_TAG_inactive`"),
    row("random_event_player", MANY, WEAKENED, "the events come in turn, in a game: nothing is random"),
    row("scoring", FEW, REWRITTEN, "`variable_player`"),
    row("ball_holds", SOME, REWRITTEN, "the device has no `eject_coil`; a `coil_player` lets a ball go"),
    row("tilt", NEARLY_ALL, REWRITTEN, "a counter; `tilt` disables flippers, autofire coils and ball saves"),
    row("tilt.settle_time; tilt.slam_tilt_switch_tag; tilt.slam_tilt_events", MANY, WEAKENED,
        "no time to settle; a slam tilt is a tilt and ends no game", "`settle_time`, `slam_tilt_switch_tag`"),
    row("extra_balls", SOME, REWRITTEN, "a ball save without a time: the same player goes on"),
    row("extra_ball_groups", FEW, REWRITTEN, "a variable says how many are lit"),
    row("drop_targets", SOME, REWRITTEN,
        "a shot with the states `up` and `down`: it says what was hit, not what is up"),
    row("drop_target_banks", SOME, REWRITTEN, "a group of these shots"),
    row("diverters", SOME, REWRITTEN, "a mode that holds the coil"),
    row("kickbacks", SOME, REWRITTEN, "an autofire coil that kicks once each time it is enabled"),
    row("spinners", SOME, REWRITTEN, "a mode that runs while it spins"),
    row("combo_switches", SOME, REWRITTEN, "modes that run while a button is held"),
    row("timed_switches", SOME, REWRITTEN, "a mode that runs while the switch is active"),
    row("sequence_shots", MANY, REWRITTEN, "a sequence; with a time, in a mode"),
    row("state_machines", FEW, REWRITTEN, "a variable and conditions"),
    row("part of a rewrite", FEW, WEAKENED, "left out", "a setting of a section above that has no row of its own"),
)
SETTINGS = (
    row("switches.ignore_window_ms", SOME, WEAKENED, "left out: a hit that comes too soon counts",
        "`ignore_window_ms` of a switch"),
    row("switches.playfield; switches.power; switches.debounce_open; switches.debounce_close", FEW, UNSEEN, "left out",
        "`playfield`, `debounce_open` of a switch"),
    row("old names", MANY, REWRITTEN, "the name of version 6",
        "`pulse_ms`, `hold_power` of a coil, `activation_events`"),
    row("powers in eighths", SOME, REWRITTEN, "a part of full power: the lowest that it can mean",
        "`hold_power: 4`, masks and other old powers"),
    row("lowest power or time", SOME, WEAKENED, "the lower of two, or none",
        "a power or a time of a coil whose meaning is not sure"),
    row("mpf.default_pulse_ms", SOME, REWRITTEN, "`default_pulse_ms` at each coil without one",
        "`default_pulse_ms` in `mpf`"),
    row("coils.pulse_events; coils.enable_events; coils.disable_events", FEW, REWRITTEN, "a `coil_player`",
        "`pulse_events`, `enable_events`, `disable_events` of a coil"),
    row("coils.max_hold_duration; coils.default_timed_enable_ms; timed_enable", FEW, LOST,
        "left out, and the coil may not be held: its hold would not end",
        "`max_hold_duration`, `timed_enable`"),
    row("coils.default_recycle; coils.recycle; coils.psu", SOME, WEAKENED,
        "left out: a coil is ready again after twice its pulse", "`default_recycle`"),
    row("hold not allowed", SOME, LOST, "left out: the coil may not be held",
        "`enable` of a coil that may not be held"),
    row("flipper of one coil", SOME, WEAKENED, "it is held, and not pulsed first: it may be too weak",
        "a flipper of one coil that may be held"),
    row("coil_player forms", MANY, REWRITTEN, "a pulse, or what the word means",
        "`a: c_kick`, `c_kick: {pulse_ms: 8}`, `c_gate: on`"),
    row("coil_player.max_wait_ms", FEW, WEAKENED, "left out: a pulse that comes too soon is skipped",
        "`max_wait_ms` in a `coil_player`"),
    row("flippers.main_coil_overwrite; flippers.hold_coil_overwrite; autofire_coils.coil_overwrite", SOME, WEAKENED,
        "the coil itself gets the lower of the two", "`main_coil_overwrite`, `coil_overwrite`"),
    row("flippers.eos_switch; flippers.use_eos; flippers.repulse_on_eos_open; flippers.power_setting_name; "
        "autofire_coils.coil_pulse_delay; autofire_coils.reverse_switch; autofire_coils.switch_overwrite; "
        "autofire_coils.timeout_watch_time; autofire_coils.timeout_max_hits; autofire_coils.timeout_disable_time", SOME,
        WEAKENED, "left out", "`eos_switch`, `reverse_switch` and others of a flipper or an autofire coil"),
    row("flippers.ball_search; flippers.include_in_ball_search; autofire_coils.ball_search_order; "
        "autofire_coils.include_in_ball_search; ball_devices.ball_search_order; flippers.ball_search_order; "
        "shots.ball_search_order", SOME, WEAKENED, "left out: there is no ball search",
        "`ball_search_order` and others"),
    row("ball_devices.player_controlled_eject_event", MANY, REWRITTEN,
        "the event pulses the coil, with a ball there or not",
        "`player_controlled_eject_event`"),
    row("ball_saves.auto_launch", MANY, REWRITTEN, "a variable says that a ball on its way is to be launched",
        "`auto_launch` of a ball save"),
    row("lists of one", FEW, WEAKENED, "the first one", "several `eject_targets` or `eject_timeouts`"),
    row("ball_devices.eject_coil_jam_pulse; ball_devices.eject_coil_retry_pulse; ball_devices.eject_coil_max_wait_ms; "
        "ball_devices.eject_coil_reorder_pulse; ball_devices.eject_coil_enable_time", SOME, WEAKENED,
        "left out: each attempt has the coil's own pulse", "`eject_coil_jam_pulse` and others"),
    row("ball_devices.jam_switch; ball_devices.entrance_switch; ball_devices.confirm_eject_type; "
        "ball_devices.confirm_eject_switch; ball_devices.confirm_eject_event; ball_devices.ball_capacity; "
        "ball_devices.ball_missing_timeouts; ball_devices.captures_from; ball_devices.hold_events; "
        "ball_devices.hold_coil; ball_devices.hold_coil_release_time; ball_devices.hold_switches; "
        "ball_devices.entrance_event; ball_devices.entrance_switch_full_timeout; "
        "ball_devices.idle_missing_ball_timeout; "
        "ball_devices.request_ball_events; ball_devices.auto_fire_on_unexpected_ball; ball_devices.counter; "
        "ball_devices.ejector; ball_devices.target_on_unexpected_ball", MANY, WEAKENED, "left out",
        "`jam_switch`, `confirm_eject_type` and others of a ball device"),
    row("ball_devices.eject_all_events; ball_devices.eject_events; ball_devices.stop_events; "
        "ball_devices.eject_targets_all",
        FEW, LOST, "left out: a device with a coil ejects what comes in", "`eject_all_events` of a ball device"),
    row("ball_saves.grace_period", MANY, REWRITTEN, "added to the `active_time`", "`grace_period` of a ball save"),
    row("ball_saves.timer_start_events", MANY, REWRITTEN,
        "it is enabled then, once for each of its `enable_events`",
        "`timer_start_events` of a ball save"),
    row("ball_saves.hurry_up_time; ball_saves.only_last_ball; ball_saves.early_ball_save_events; "
        "ball_saves.eject_delay; "
        "ball_saves.delayed_eject_events; ball_saves.source_playfield; ball_saves.ball_locks; ball_saves.debug_", MANY,
        WEAKENED, "left out", "`hurry_up_time`, `only_last_ball` and others of a ball save"),
    row("multiballs.shoot_again; multiballs.grace_period", MANY, REWRITTEN, "a ball save that the multiball enables",
        "`shoot_again` of a multiball, 10 s if it is not written"),
    row("multiballs.ball_count_type", SOME, REWRITTEN, "the balls in play, with the one that is there already",
        "`ball_count_type` of a multiball"),
    row("multiballs.add_a_ball_events; multiballs.stop_events; multiballs.ball_locks; multiballs.enable_events; "
        "multiballs.disable_events; multiballs.reset_events; multiballs.start_or_add_a_ball_events; "
        "multiballs.replace_balls_in_play; multiballs.source_playfield; multiballs.hurry_up_time; "
        "multiballs.source_devices", SOME, LOST, "left out",
        "`add_a_ball_events`, `stop_events` and others of a multiball"),
    row("shots.switches", MANY, REWRITTEN, "`hit_events` with the event of each switch", "several switches of a shot"),
    row("shots.start_enabled; counters.start_enabled; accruals.start_enabled; sequences.start_enabled", MANY, REWRITTEN,
        "`enable_events`, with an event that never comes if there is none", "`start_enabled: no`"),
    row("shots.restart_events; shot_groups.restart_events", FEW, REWRITTEN,
        "`reset_events`, and `enable_events` if it has any",
        "`restart_events` of a shot"),
    row("shots.control_events", SOME, REWRITTEN,
        "`reset_events` or `advance_events`, for the states 0 and 1", "`control_events` of a shot"),
    row("shots.show_tokens; shot_profiles.show; shot_profiles.show_tokens; shot_profiles.player_variable; "
        "shot_profiles.show_when_disabled; shot_profiles.manual_advance; shots.persist_enable; shots.show; "
        "shot_profiles.unlit_profile; mode.events_when_; states.show", NEARLY_ALL, UNSEEN, "left out",
        "`show_tokens`, and `show` of a profile"),
    row("shot_profiles.block; shot_profiles.rotation_pattern; shot_profiles.state_names_to_rotate; "
        "shot_profiles.state_names_to_not_rotate; shot_groups.state_names_to_rotate; shots.delay_switch; "
        "shots.playfield; "
        "shots.mark_playfield_active; shot_groups.rotation_pattern", SOME, WEAKENED, "left out",
        "`block`, `rotation_pattern`, `delay_switch` and others of shots"),
    row("shot_groups.enable_events; shot_groups.disable_events; shot_groups.advance_events; shot_groups.hit_events",
        SOME,
        REWRITTEN, "the same at each shot of the group", "`enable_events` and others of a group"),
    row("shot_groups.enable_rotation_events; shot_groups.disable_rotation_events; shot_groups.profile", FEW, WEAKENED,
        "left out: a group can always be rotated", "`enable_rotation_events`"),
    row("counters.player_variable; accruals.player_variable; sequences.player_variable; counters.player_var", SOME,
        REWRITTEN,
        "a `variable_player` that counts its hits", "`player_variable` of a counter"),
    row("counters.control_events", FEW, LOST, "left out", "`control_events` of a counter"),
    row("timers.control_events.action", FEW, LOST, "the item is left out",
        "other actions of a timer, such as `change_tick_interval`"),
    row("timers.pause", FEW, WEAKENED, "a pause that nothing ends by itself", "`pause` of a timer with a `value`"),
    row("timers.max_value; timers.bcp; timers.ticks_to_go; timers.start_paused", FEW, WEAKENED, "left out",
        "`max_value` of a timer"),
    row("timers in the machine", FEW, LOST, "left out: only a mode has timers", "`timers` in the text of the machine"),
    row("mode.events_when_started; mode.events_when_stopped", SOME, REWRITTEN, "an `event_player` of the mode",
        "`events_when_started` of a mode"),
    row("mode.use_wait_queue", SOME, WEAKENED, "left out: only a ball's end waits",
        "`use_wait_queue` with other starts, or without a stop"),
    row("mode.start_priority; mode.stop_priority; mode.restart_on_next_ball; mode.assets; mode.player_controlled", FEW,
        WEAKENED,
        "left out", "`start_priority` of a mode"),
    row("modes of MPF", NEARLY_ALL, UNSEEN, "not listed if the folder has no text of it",
        "`attract`, `game` and other modes of MPF itself"),
    row("attract", NEARLY_ALL, WEAKENED, "it runs between two games, and not before the first",
        "the text of the mode `attract`"),
    row("own mode of MPF", MANY, WEAKENED, "it starts as the mode of MPF does: `tilt` and `bonus`",
        "a mode of MPF without `start_events`"),
    row("no game", SOME, REWRITTEN, "an empty section `game`", "no section `game`"),
    row("game.start_game_switch_tag; game.add_player_switch_tag", SOME, REWRITTEN, "the tag `start` at those switches",
        "`start_game_switch_tag`"),
    row("game.allow_start_with_loose_balls; game.allow_start_with_ball_in_drain; game.add_player_event; "
        "game.start_game_event; game.add_player_switch; game.ball_loop", SOME, WEAKENED, "left out",
        "`allow_start_with_loose_balls` and others of `game`"),
    row("machine.balls_installed; machine.glass_off_mode", MANY, UNSEEN, "left out", "`balls_installed`"),
    row("score|block", MANY, WEAKENED, "the score without the block",
        "`score: 100\\|block`, `block: true`"),
    row("score * variable", MANY, WEAKENED, "an entry for each value up to 10; a greater one scores as 10",
        "`score: 1000 * current_player.x`"),
    row("variable_player.other", SOME, LOST, "left out",
        "variables of the machine, texts and formulas in a `variable_player`"),
)
TABLE = (*FILES, *SECTIONS_UNSEEN, *SECTIONS_LOST, *REWRITES, *SETTINGS)
FEATURES: dict[str, Feature] = {name: it for it in TABLE for name in it.names}
LEFT_OUT = {name for it in (*SECTIONS_UNSEEN, *SECTIONS_LOST) for name in it.names}  # sections
