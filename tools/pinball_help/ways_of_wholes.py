"""What is said of the faults of a whole machine: a limit, a cycle, or a bound that is too large."""
from .answers import Complaint
from .graph import CycleError, Graph, Post
from .machine_graph import graph_of
from .mending import take_item_out, take_out
from .profile import limits
from .scenery import Scenery
from .ways import Cure, Way

DEAREST = 5
ROWS = (
    "counters", "accruals", "sequences", "timers", "flippers", "autofire_coils", "ball_devices", "ball_saves",
    "multiballs", "shot_groups",
)
BACK = "Take out one of these steps. This one leads back to the start:"
EASIEST = "The easiest step to take out is"
EASE = ("event_player", "hit_events", "is hit", "events of", "variable_player")


def of_cycle(scene: Scenery, complaint: Complaint) -> Cure:
    """Where each step of the cycle is written, and which one is the easiest to take out."""
    graph = graph_of(scene)
    events = list(complaint.words)
    pairs = list(zip(events, events[1:] + events[:1]))
    steps = {pair: graph.steps(*pair) for pair in pairs}
    says = tuple(f"{one} → {other}: {written(scene, steps[one, other])}" for one, other in pairs)
    mine = [pair for pair in pairs if steps[pair] and all(it.entry for it in steps[pair])]
    starts = starts_of(graph, events)
    mine.sort(key=lambda pair: (pair[1] not in starts, len(steps[pair]), ease(steps[pair][0])))
    ways = []
    for pair in mine:
        words = " and ".join(written(scene, [it]) for it in steps[pair])
        edits = tuple(out_of(scene, it) for it in steps[pair])
        if len({(it.text, it.first) for it in edits}) == len(edits):
            advice = BACK if pair[1] in starts else EASIEST
            ways.append(Way(edits, f"{advice} {pair[0]} → {pair[1]}: {words}."))
    if not mine:
        return Cure(says)
    first = steps[mine[0]][0]
    mark = (first.item.start, first.item.end) if first.item else (
        first.entry.start, first.entry.end
    ) if first.entry else None
    return Cure(says, False, tuple(ways), ways[0].edits if ways else (), mark, (first.text, first.line))


def starts_of(graph: Graph, cycle: list[str]) -> set[str]:
    """The events of a cycle to which something leads that does not itself come from the cycle."""
    after: dict[str, set[str]] = {}
    for post in graph.posts:
        after.setdefault(post.event, set()).add(post.posts)
    reached, waiting = {*cycle}, [*cycle]
    while waiting:
        new = after.get(waiting.pop(), set()) - reached
        reached |= new
        waiting += new
    return {it.posts for it in graph.posts if it.posts in cycle and it.event not in reached}


def written(scene: Scenery, posts: list[Post]) -> str:
    if not posts:
        return "made by the machine"
    return "; ".join(
        f"{it.why}, {scene.where(it.text, it.line)}" if it.entry else f"made by the machine ({it.why})" for it in posts
    )


def ease(post: Post) -> int:
    return next((rank for rank, words in enumerate(EASE) if words in post.why), len(EASE))


def out_of(scene: Scenery, post: Post):
    assert post.entry
    if post.item:
        return take_item_out(scene.texts, post.text, post.entry, post.item)
    return take_out(scene.texts, post.text, post.entry)


def counted(scene: Scenery, graph: Graph, table: str) -> int:
    """How many a plan has, by the graph; 0 where it is not counted here."""
    if table == "events":
        return len(graph.names())
    if table in ("switches", "coils"):
        return sum(1 for _ in scene.entries_of(table))
    if table == "variables":
        return len({it.key for _, entry in scene.entries_of("variable_player") for it in entry.value.entries or []})
    if table == "rows":
        shots = sum(1 for _ in scene.entries_of("shots"))
        listed = sum(len(it.texts()) for _, entry in scene.entries_of("shot_groups") if (it := entry.value.at("shots")))
        return sum(1 for section in ROWS for _ in scene.entries_of(section)) + max(0, shots - listed)
    return 0


def of_limit(scene: Scenery, complaint: Complaint) -> Cure:
    table = next(iter(complaint.words), "")
    if not table:
        return Cure()
    count, most = counted(scene, graph_of(scene), table), limits().get(table, "?")
    says = f"There are {count:,} {table}, at most {most}." if count else f"At most {most} {table} may be there."
    return Cure((says,))


def of_bound(scene: Scenery, complaint: Complaint) -> Cure:
    """The dearest events, by a weighing of these tools."""
    graph = graph_of(scene)
    try:
        weights = graph.weights()
    except CycleError:
        return Cure()
    says = ["A weight is how many lines an event can cause. The greatest, as weighed here:"]
    for event in sorted(weights, key=lambda it: -weights[it])[:DEAREST]:
        places = [it for it in graph.posts if it.event == event and it.entry]
        where = f" ({scene.where(places[0].text, places[0].line)})" if places else ""
        says.append(f"{weights[event]:>12,}  {event}{where}")
    stimuli = {name: cost.weight(weights) for name, cost in graph.stimuli.items()}
    dearest = max(stimuli, key=lambda it: stimuli[it], default="")
    if dearest:
        says.append(f"{stimuli[dearest]:>12,}  from outside:{dearest}")
    steep = max(graph.costs, key=lambda it: max(counts(graph, it).values(), default=0), default="")
    many = counts(graph, steep)
    if steep and max(many.values(), default=0) > 1:
        posted = max(many, key=lambda it: many[it] * weights.get(it, 1))
        says.append(f"`{steep}` posts `{posted}` {many[posted]} times.")
    return Cure(tuple(says))


def counts(graph: Graph, event: str) -> dict[str, int]:
    found: dict[str, int] = {}
    for cost in graph.costs.get(event, []):
        for posted in cost.posts:
            found[posted] = found.get(posted, 0) + 1
    return found


WAYS = {"fault 7 Limit": of_limit, "fault 8 Cycle": of_cycle, "fault 9 Bound": of_bound}
