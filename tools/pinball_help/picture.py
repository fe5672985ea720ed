"""One page with the graph of what posts what, and with a log the timeline of its play."""
import base64
import hashlib
import html
import json
import re
from pathlib import Path

from .answers import Answer
from .graph import CycleError, Graph, Post
from .layout import Layout, add_lone, placed
from .machine_graph import graph_of
from .printed import clean
from .scenery import Scenery
from .trace import Coils, Step, steps_of, time_of, words_of

HERE = Path(__file__).resolve().parent
MOST_LINES = 60_000  # of a play that is drawn
MODES = "  "  # the band of the picture of modes
BALLS = ("in devices", "on the way", "on the playfield")


def graph_data(scene: Scenery, graph: Graph, answer: Answer) -> dict:
    """The boxes and arrows of the graph, as the page reads them, and where they are: all, or those that are handled."""
    cycle = next((it.words for it in answer.complaints if it.name == "Cycle"), ())
    steps = set(zip(cycle, [*cycle[1:], *cycle[:1]]))
    names, after, bands = graph.names(), leads_to(graph), bands_of(graph)
    weights = weights_of(graph, answer)
    handled = {*after} | {it.event for it in graph.handled}
    linked = handled | {it for following in after.values() for it in following}
    whole = placed([it for it in names if it in linked], bands, after)
    add_lone(whole, [it for it in names if it not in linked])
    names = list(whole.boxes)
    few = layout_of([it for it in names if it in handled], bands, after)
    number = {name: at for at, name in enumerate(names)}
    outside = {it.posts for it in graph.posts if it.event.startswith(" ")}
    arrows: dict[tuple[int, int, bool], list[str]] = {}
    for it in graph.posts:
        if it.event in number:
            key = (number[it.event], number[it.posts], (it.event, it.posts) in steps)
            arrows.setdefault(key, []).append(why_of(scene, it))
    return {
        "boxes": [
            [name, round(whole.boxes[name].width), weights.get(name, 0), int(name in outside), int(name in linked)]
            for name in names
        ],
        "arrows": [[one, other, int(red), list(dict.fromkeys(why))] for (one, other, red), why in arrows.items()],
        "places": places(scene, graph, number),
        "layouts": [layout_data(whole, names), layout_data(few, names)],
    }


def layout_of(names: list[str], bands: dict[str, str], after: dict[str, list[str]]) -> Layout:
    """Where these names are, by what they lead to among themselves."""
    shown = {*names}
    return placed(names, bands, {it: [one for one in after.get(it, []) if one in shown] for it in names})


def layout_data(layout: Layout, names: list[str]) -> dict:
    """The place of each name, or none if it is not shown; the bands; and the size of the whole."""
    boxes = [layout.boxes.get(name) for name in names]
    return {
        "at": [[round(it.x), round(it.y)] if it else None for it in boxes],
        "bands": [[it.name, it.y, it.height] for it in layout.bands],
        "size": [layout.width + 20, layout.height],
    }


def modes_data(scene: Scenery, graph: Graph) -> dict | None:
    """The modes alone: an arrow is from the mode that posts an event to each mode that has it as a start or stop."""
    modes = [scene.owner(text) for text in scene.read]
    if len(modes) < 2:
        return None
    bands, number = bands_of(graph), {name: at for at, name in enumerate(modes)}
    arrows: dict[tuple[int, int], list[str]] = {}
    for it in graph.posts:
        one, other = bands.get(it.event, ""), bands.get(it.posts, "")
        does = {f"mode_{other}_will_start": "starts", f"mode_{other}_stopping": "stops"}.get(it.posts)
        if it.entry and does and one in number and other in number and one != other:
            said = f"{it.event} {does} {other}: {why_of(scene, it)}"
            arrows.setdefault((number[one], number[other]), []).append(said)
    after = {name: [modes[other] for one, other in arrows if modes[one] == name] for name in modes}
    layout = layout_of(modes, dict.fromkeys(modes, MODES), after)
    return {
        "boxes": [[name, round(layout.boxes[name].width), 0, int(name == "machine"), 1] for name in modes],
        "arrows": [[one, other, 0, list(dict.fromkeys(why))] for (one, other), why in arrows.items()],
        "places": {},
        "layouts": [layout_data(layout, modes)],
    }


def leads_to(graph: Graph) -> dict[str, list[str]]:
    """What each event leads to."""
    after: dict[str, list[str]] = {}
    for it in graph.posts:
        if not it.event.startswith(" "):
            after.setdefault(it.event, []).append(it.posts)
    return {name: list(dict.fromkeys(it)) for name, it in after.items()}


def bands_of(graph: Graph) -> dict[str, str]:
    """The band of each event: the mode that alone posts it, or whose event it is; else the machine."""
    posters: dict[str, set[str]] = {}
    for it in graph.posts:
        posters.setdefault(it.posts, set()).add(it.text.split("/")[1] if it.text.startswith("modes/") else "machine")
    found = dict.fromkeys(graph.names(), "machine")
    found.update({name: next(iter(it)) for name, it in posters.items() if len(it) == 1})
    found.update({name: owner for name, owner in graph.owners.items() if owner != "machine"})
    return found


def why_of(scene: Scenery, post: Post) -> str:
    return f"{post.why}, {scene.where(post.text, post.line)}" if post.entry else post.why


def weights_of(graph: Graph, answer: Answer) -> dict[str, int]:
    """Those of the certificate; else by the weighing of these tools; none where there is a cycle."""
    if answer.weights:
        return answer.weights
    try:
        return graph.weights()
    except CycleError:
        return {}


def places(scene: Scenery, graph: Graph, number: dict[str, int]) -> dict[int, list[list[str]]]:
    """Of each event, by its number: where it is handled, and what posts it from outside."""
    found: dict[int, list[list[str]]] = {}
    handled = [(it.event, 0, it) for it in graph.handled]
    for name, which, it in [*handled, *((it.posts, 1, it) for it in graph.posts if it.event.startswith(" "))]:
        found.setdefault(number[name], [[], []])[which].append(why_of(scene, it))
    return {at: [list(dict.fromkeys(it)) for it in both] for at, both in found.items()}


def play_data(trace: str) -> dict:
    """The rows of the timeline: what was on from when to when, and what rose and fell."""
    steps = [it for it in steps_of(trace.split("\n")) if isinstance(it, Step)]
    cut, steps = len(steps) > MOST_LINES, steps[:MOST_LINES]
    end = max((it.moment for it in steps), default=0)
    spans: dict[tuple[str, str], list[list]] = {}
    open_at: dict[tuple[str, str], int] = {}
    levels: dict[str, list[list[int]]] = {}
    owners: dict[tuple[str, str], str] = {}
    coils = Coils(keep=True)
    for it in steps:
        coils.take(it)
        follow(it, spans, open_at, levels, owners)
    for key, start in open_at.items():
        spans.setdefault(key, []).append([start, end])
    coils.end()
    for name, coil in coils.coils.items():
        spans["coils", name] = [list(it) for it in coil.on.all or []]
    return {
        "end": end, "cut": cut,
        "rows": [
            [kind, name, it] for (kind, name), it in sorted(spans.items(), key=lambda row: ORDER.index(row[0][0]))
        ],
        "levels": [[name, it] for name, it in levels.items()],
        "lines": [[it.moment, ("" if it.owner == "machine" else f"[{it.owner}] ") + words_of(it)] for it in steps],
    }


ORDER = ["modes", "saves", "switches", "coils"]
# a ball save that is active, and a multiball that runs: the events that begin and end that
SAVES = re.compile(r"(?:(ball_save)_(.+)_(?:(enabled)|disabled)|(multiball)_(.+)_(?:(started)|ended))$")


def follow(step: Step, spans: dict, open_at: dict, levels: dict, owners: dict) -> None:
    """Adds a step to the rows of switches, modes, ball saves and multiballs, and to the lines of balls and scores.

    `owners` are those of the ball saves and multiballs: with its mode each of them ends, and posts nothing."""
    words = step.words
    if step.kind == "switch":
        turn(spans, open_at, ("switches", words[0]), step.moment, words[1] == "active")
    elif step.kind == "event" and words[0].startswith("mode_"):
        for ending, begins in ("_started", True), ("_stopped", False):
            if words[0].endswith(ending) and step.owner == "machine":
                mode = words[0][5 : -len(ending)]
                turn(spans, open_at, ("modes", mode), step.moment, begins)
                for key in [it for it, owner in owners.items() if owner == mode]:
                    turn(spans, open_at, key, step.moment, False)
    elif step.kind == "event" and (found := SAVES.match(words[0])):
        key = ("saves", f"{'ball save' if found[1] else 'multiball'} {found[2] or found[5]}")
        owners[key] = step.owner
        turn(spans, open_at, key, step.moment, bool(found[3] or found[6]))
    elif step.kind == "balls":
        for name, count in zip(BALLS, words[1:]):
            levels.setdefault(f"balls {name}", [[0, 0]]).append([step.moment, int(count)])
    elif step.kind == "player" and words[1] == "score":
        levels.setdefault(f"score of player {words[0]}", [[0, 0]]).append([step.moment, int(words[2])])


def turn(spans: dict, open_at: dict, key: tuple[str, str], moment: int, begins: bool) -> None:
    if begins:
        open_at.setdefault(key, moment)
    elif key in open_at:
        spans.setdefault(key, []).append([open_at.pop(key), moment])


def answer_words(answer: Answer) -> str:
    if answer.accepted:
        return f"yes: accepted, with the bound {answer.bound}"
    first = answer.complaints[0].said if answer.complaints else "no"
    more = len(answer.complaints) - 1
    return f"no: {first}" + (f" and {more} more" if more > 0 else "")


def page(title: str, scene: Scenery, answer: Answer, trace: str | None) -> str:
    """The page: the data of this machine in the page of picture.html."""
    title, graph = clean(title), graph_of(scene)
    data = {"title": title, "answer": answer_words(answer), "yes": answer.accepted,
            "graph": graph_data(scene, graph, answer), "modes": modes_data(scene, graph),
            "play": play_data(trace) if trace else None}
    # (what is in a script is no HTML: a `<` there may end it, so none is written)
    text = json.dumps(data, separators=(",", ":"), ensure_ascii=True).replace("<", "\\u003c")
    css, js = ((HERE / f"picture.{name}").read_text() for name in ("css", "js"))
    parts = {"css": css, "js": js, "title": html.escape(title), "data": text, "policy": policy(css, js)}
    # (in one pass: what a machine's names say is not looked at again)
    return re.sub(r"\{\{(\w+)\}\}", lambda found: parts[found[1]], (HERE / "picture.html").read_text())


def policy(css: str, js: str) -> str:
    """What a browser may do in the page: run its one script, and use its one style sheet. Nothing is loaded or sent."""
    digests = [base64.b64encode(hashlib.sha256(it.encode()).digest()).decode() for it in (js, css)]
    script, style = (f"'sha256-{it}'" for it in digests)
    return f"default-src 'none'; script-src {script}; style-src {style}; base-uri 'none'; form-action 'none'"


__all__ = ["page", "time_of"]
