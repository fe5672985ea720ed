"""Odd values and odd texts, for what random damage seldom makes."""
import random

VALUES: list[str] = [
    "0", "1", "01", "-1", "-0", "+1", "1ms", "1s", "1m", "1h", "1d", "1.5s", "1.0005s", "1.001s", "0.001s", "0.0001s",
    "0.5ms", "1.5", "1.0", "1.000", "1.0ms", "1.", ".5s", "4294967295", "4294967296", "4294967.295s", "4294967.296s",
    "49d", "50d", "71582m", "71583m", "1193h", "1194h", "1M", "1S", "1e3", "1,5",
    "1s5", "''", "5000", "5001", "5s", "5.001s", "0ms", "0.0s", "1msec", "1:30", "0x1", "１", "1 ms", "1  s", "1\ts",
    "1 ", " 1", "1 . 5s", "1.5 s", "1. 5s", "", "0.0", "0.5", ".5", "0.25", "0.123", "0.1234", "1.001", "1.0001",
    "0.000", "00.5", "2", "1.1", "-0.5", "+0.5", "0%", "100%", "25%", "25.5%", "25.55%", "100.0%", "100.1%", "101%",
    "12.5%", "00%", "025%", "1e0", "%", "25 %", ". 5", "0.5 ", "-01", "1000000000", "1000000001", "-1000000000",
    "-1000000001", "00000000000000000001", "99999999999999999999", "-", "--", "1_0", "yes", "no", "true", "false",
    "on", "off", "Yes", "No", "True", "False", "On", "Off", "YES", "NO", "TRUE", "FALSE", "ON", "OFF", "yEs", "y",
    "n", "tRUE", "a", "a-b", "a.b", "a_b", ".", "..", "_", "a b", "a/b", "ä", "a,b", "{a}", "a:b",
    "a#b", "~", "null", "a\\b", "a{current_player.b==1}", "a{current_player.b == 1}", "a{ current_player.b==1 }",
    "a {current_player.b==1}", "a{current_player.b=1}", "a{current_player.b===1}", "a{current_player.b<1}",
    "a{current_player.b<=1}", "a{current_player.b>=1}", "a{current_player.b>1}", "a{current_player.b!=1}",
    "a{current_player.b<>1}", "a{current_player. b==1}", "a{current_player .b==1}", "a{current_player.b==-1}",
    "a{current_player.b==+1}", "a{current_player.b==1000000000}", "a{current_player.b==1000000001}",
    "a{current_player.b==01}", "a{current_player.x-1>=2}", "a{current_player.x-1 >=-2}", "a{current_player.>=2}",
    "a{current_player>=2}", "a{player.b>=2}", "a{}", "a{ }", "{current_player.b==1}", "a{current_player.b==1}b",
    "a{current_player.b==1", "a{current_player.b==1}}", "a{{current_player.b==1}}", "a{current_player.b==c}",
    "a{1==current_player.b}", "a{current_player.b\t==\t1}", "a{current_player.b==1 }", "a{current_player.b==1.0}",
    "a{current_player.b== 1}", "a|2s", "a{current_player.b==1 and current_player.c==1}",
    "Current{current_player.B==1}", "a, b", "a,,b", ",a", "a,", ",", ", ", "a{current_player.b == 1}, c",
    "a{current_player.b == 1},c{current_player.b==2}", "{a b} c", "}a b", "a} b", "a{b c", "a{b{c} d} e", "a\tb",
]
VALUES += ["x" * 64, "x" * 65, "a{current_player." + "x" * 64 + "==1}", "a{current_player." + "x" * 65 + "==1}"]

# Texts below the line with the version.
TEXTS: list[str] = [
    "k: [a]: b", "[a]: b", "k: {a: b}: c", "- [a]: b", "[[a]: b]", "{a: {b: c}: d}", 'k: ["a"]: b', "a: 1\n[a]: b",
    'a: 1\n"x', 'a: 1\n"x" y: 1', '"x" y: 1', "lights:\n  - [a]: b", "a: [b] : c", "a: [b]:c", "[[a]:b]",
    "{a: [b]:c}", "{'a'}", "{'a' }", "{'a', b: c}", "{a, b: c}", "{[a]}", "['a':]", "['a':b]", "[a:b:]", "[a: ]",
    "{a:,b: c}", "{a :b}", "{a : b}", "{'a': b, 'a': c}", "{a: b, a}", "{a: b, : c}", "[,a]", "{,}", "{a: b,, c: d}",
    "[a, - ]", "[a, -]", "[- ]", "[-\t]", "[?]", "[? ]", "[:]", "[: ]", "[::]", "[a::]", "{::b}", "{:: b}", "a:: b",
    "a: :b", "a: : b", ":: b", ": b", "? a", "?", "-", "- ", "- -", "-- a", "a:\n  - b\n c: d", "a:\n- b\n  c: d",
    "- a: b\n   c: d", "- a: b\n c: d", "a:\n  b: c\n - d", "a: |", "a: >", "a: *x", "a: !t", "a: %x", "a: @x",
    "a: `x", "%a: b", "@a: b", "a: 'b'c", "a: 'b' #c", "a: 'b'#c", "a: b#c", "a: b #c", "a: #c", "a:#c", "#a: b",
    "a: ]", "a: }", "] : b", 'a: "b\\qc"', 'a: "b', "a: 'b", "'a: b", 'a: "b\\', '"a\\n": c', '"a\\q": c',
    'x: 1\n"a\\q": c', 'a: ["b\\q"]', '["a\\q": b]', '{"a\\q": b}', " a: b", "  a: b\n c: d", "a: b\n c: d",
    "a:\n\tb: c", "a:\n  b\n\tc", "a: b\t", "a:\tb", "a\t: b", "-\ta", "- a:\tb", "-\ta: b", "- \ta: b",
    "-  a: b\n   c: d", "... ", "...", "---", "--- a", "---a: b", "a: ---", " ---", "a\n---", "a: b\n...",
    "a: b\n ...", "a: {x: 1}\n  b: c", "a: [1,\n2]", "a: {", "a: [", "a: {b", "a: {b:", "a: {b: ", "a: [b: ",
    "a: [b:", "\ufeffa: b", "a: \x07b", "a: \x85b", "a: \u2028b", "a: '\x7f'", "a: b\rc: d", "a: b\r", "# \x07",
    "a: [#b]", "a: [ #b]", "a: [b #c]", "a: [b, #c]", "a: [b,#c]", "a: {b: #c}", "a: {b: c#d}", "a: {#b: c}",
    "a: b\na: c", 'a: b\n"a": c', "{a: b}\nc: d", "[a]\nb: c", "a\nb: c", "a: b\nc", "a: b\n- c", "- a\nb: c",
    "- a\nb", "- a\n-b", "a:\n- b\nc", "a:\n- b\n-c", "a:\n  - b\n  c: d", "a:\n  b: c\n  - d", "a:\n  b\n  - c",
    "'': a", '\'\': a\n"": b', "a:\n\n\n", "a: ''", "a: 'it''s'", "a: 'it' 's'", 'a: "it""s"', "a: ''''", "a: '''",
    "- 'a': b", "- 'a' : b", "- 'a':b", "- 'a' b", "-'a'", "- a:b", "- a: b: c", "- a: [b]: c",
    "-\t: b", "-\t:", "-\t? a: b", "-\t- a: b", "-\t'a': b", "k: {a b: #a, \x7f", "k: {a: #\x7f", "[a, #\x7f",
    "[a #\x7f", "k: 'a\x7f", "k: {'a\x7f", "a: \x7f\n\tb: c", "\ta: \x7f",
    "a: b\na: \x7f", "a: {b: c, b: \x7f", "a: [b]\x7f",
]


# Ball saves and multiballs, the same: values at a bound or beyond it, settings of the other section, odd names.
SAVE_TEXTS: list[str] = [
    *(f"ball_saves: {{bs: {{active_time: {time}}}}}" for time in ["0", "0ms", "4294967295", "4294967296", "1.5", "-1"]),
    *(f"ball_saves: {{bs: {{balls_to_save: {balls}}}}}" for balls in ["-1", "0", "1", "99", "100", "''"]),
    *(f"multiballs: {{mb: {{ball_count: {balls}}}}}" for balls in ["0", "1", "2", "99", "100", "''"]),
    "ball_saves:\n  bs:", "multiballs:\n  mb:", "ball_saves:", "multiballs:", "ball_saves: bs", "multiballs: [mb]",
    "ball_saves: {playfield: {}}", "multiballs: {playfield: {ball_count: 2}}", "ball_saves: {bs: {start_events: a}}",
    "multiballs: {mb: {ball_count: 2, enable_events: a}}", "multiballs: {mb: {ball_count: 2, start_events: [a, b]}}",
]


# What drawn texts are made of: common parts, and rare ones.
COMMON = ["a", "b", "a: ", "b: ", "k: {", ": ", ":", " ", "  ", "\n", "\n  ", "\n    ", "\n- ", "- ", "-", "\t"]
COMMON += ["[", "]", "{", "}", ", ", ",", "'", '"', "''", '"a"', "'b'", "#", " #"]
RARE = ["\\", "\\n", "? ", "?", "&", "|", "---", "\n...\n", "\x7f", "\r", "\r\n", "ä", "\u0085", "\u2028", "%", "*"]


def drawn(draw: random.Random) -> str:
    """A text of parts of YAML in any order."""
    return "".join(draw.choice(COMMON if draw.random() < 0.95 else RARE) for _ in range(draw.randint(1, 14)))


def nested(depth: int) -> list[str]:
    """Texts of so many blocks or brackets, one in the other."""
    inner = " " * depth + "b"
    return [
        "a: " + "[" * depth + "b" + "]" * depth,
        "a: " + "{a: " * depth + "b" + "}" * depth,
        "".join(" " * level + "a:\n" for level in range(depth)) + inner,
        "".join(" " * level + "-\n" for level in range(depth)) + inner,
        "".join("  " * level + ("- a:\n" if level else "a:\n") for level in range(depth)),
    ]


def long_keys(length: int) -> list[str]:
    """Texts with keys about so long."""
    key = "k" * length
    return [f"{key}: a", f"'{key[2:]}': a", f"{{{key}: a}}", f"{key[3:]}   : a", "ä" * length + ": a", f"- {key}: a"]


TEXTS += [text for depth in (7, 8, 9, 15, 16, 17, 30, 31, 32, 33) for text in nested(depth)]
TEXTS += [text for length in (1_023, 1_024, 1_025) for text in long_keys(length)]
