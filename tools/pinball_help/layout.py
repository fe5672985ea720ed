"""Places the events of a graph: each mode is a band, and what an event leads to is to its right."""
from dataclasses import dataclass, field

ROW, LETTER, PADDING, WEIGHT, GAP = 24, 6.7, 14, 38, 46
TALLEST = 48  # how many events are above each other before a second column begins
LONE = " "  # the band of what is alone
HEAD = 30  # the height of a band's title


@dataclass
class Box:
    name: str
    band: str
    x: float = 0
    y: float = 0
    width: float = 0


@dataclass
class Band:
    name: str
    y: float
    height: float


@dataclass
class Layout:
    boxes: dict[str, Box] = field(default_factory=dict)
    bands: list[Band] = field(default_factory=list)
    width: float = 0
    height: float = 0


def ranks(names: list[str], after: dict[str, list[str]]) -> dict[str, int]:
    """The length of the longest way to each name. Of a cycle, the step that closes it does not count."""
    order: list[str] = []
    state: dict[str, int] = {}
    closing: set[tuple[str, str]] = set()
    for first in names:
        stack = [(first, iter(after.get(first, [])))] if first not in state else []
        state.setdefault(first, 1)
        while stack:
            name, rest = stack[-1]
            following = next(rest, None)
            if following is None:
                state[name] = 2
                order.append(name)
                stack.pop()
            elif state.get(following) == 1:
                closing.add((name, following))
            elif following not in state:
                state[following] = 1
                stack.append((following, iter(after.get(following, []))))
    found = dict.fromkeys(names, 0)
    for name in reversed(order):
        for following in after.get(name, []):
            if (name, following) not in closing:
                found[following] = max(found[following], found[name] + 1)
    return found


def placed(names: list[str], bands: dict[str, str], after: dict[str, list[str]]) -> Layout:
    """Places the names: by their ranks from left to right, and by their bands from the top."""
    rank = ranks(names, after)
    order = {name: at for at, name in enumerate(names)}
    cells: dict[tuple[str, int], list[str]] = {}
    for name in sorted(names, key=lambda it: (rank[it], order[it])):
        cells.setdefault((bands[name], rank[name]), []).append(name)
    arrange(cells, after)
    layout = Layout()
    columns = column_places(cells)
    y = 0.0
    for band in dict.fromkeys(bands[it] for it in names):
        tallest = 0
        for (other, level), cell in cells.items():
            if other == band:
                tallest = max(tallest, min(len(cell), TALLEST))
                for at, name in enumerate(cell):
                    x, width = columns[level, at // TALLEST]
                    layout.boxes[name] = Box(name, band, x, y + HEAD + (at % TALLEST) * ROW, box_width(name))
                    layout.width = max(layout.width, x + width)
        layout.bands.append(Band(band, y, HEAD + tallest * ROW + 8))
        y += HEAD + tallest * ROW + 22
    layout.height = y
    return layout


def add_lone(layout: Layout, names: list[str]) -> None:
    """Places names that nothing leads to, and that lead to nothing, in a band of their own below the others."""
    if not names:
        return
    width = max(box_width(it) for it in names) + 12
    columns = max(1, int(max(layout.width, 900) // width))
    for at, name in enumerate(names):
        x, y = 16 + at % columns * width, layout.height + HEAD + at // columns * ROW
        layout.boxes[name] = Box(name, LONE, x, y, box_width(name))
        layout.width = max(layout.width, x + width)
    height = HEAD + -(-len(names) // columns) * ROW + 8
    layout.bands.append(Band(LONE, layout.height, height))
    layout.height += height


def box_width(name: str) -> float:
    return round(min(len(name), 40) * LETTER + PADDING + WEIGHT)


def column_places(cells: dict[tuple[str, int], list[str]]) -> dict[tuple[int, int], tuple[float, float]]:
    """Where each column begins, and how wide it is: a rank has as many columns as its longest cell needs."""
    widths: dict[tuple[int, int], float] = {}
    for (_, level), cell in cells.items():
        for at, name in enumerate(cell):
            key = (level, at // TALLEST)
            widths[key] = max(widths.get(key, 0), box_width(name))
    found, x = {}, 16.0
    for key in sorted(widths):
        found[key] = (x, widths[key])
        x += widths[key] + GAP
    return found


def arrange(cells: dict[tuple[str, int], list[str]], after: dict[str, list[str]]) -> None:
    """Orders each cell by the mean place of what leads to its names."""
    before: dict[str, list[str]] = {}
    for name, following in after.items():
        for it in following:
            before.setdefault(it, []).append(name)
    place = {name: at for cell in cells.values() for at, name in enumerate(cell)}
    for key in sorted(cells, key=lambda it: it[1]):
        cell = cells[key]
        mean = {it: sum(place[x] for x in before[it]) / len(before[it]) if it in before else place[it] for it in cell}
        cell.sort(key=lambda it: mean[it])
        place.update({name: at for at, name in enumerate(cell)})
