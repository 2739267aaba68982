"""The platforms of a docker's day as SVG. Time runs across, and each platform has a row. A bar goes from a train's arrival to its departure; a tick marks a
pass."""
from html import escape
from typing import NamedTuple, Optional
import re

# Pixels for half a minute, for the margin at the left, for a lane, and for a letter.
STEP, LEFT, LANE, LETTER = 2, 70, 22, 8
WIDTH = LEFT + 2880 * STEP + 60
COLOURS = {"P": "#8a97a3", "O": "#e69f00", "N": "#56b4e9"}


class Stay(NamedTuple):
    """A train at a platform. Without an arrival, the train starts here or came before the day. Without a departure, it ends here or leaves after the day. A
    train that passes has both at the same time."""
    platform: str
    train: str
    uid: str
    stp: str
    arrives: Optional[int]
    departs: Optional[int]

    @property
    def passes(self):
        return self.arrives is not None and self.arrives == self.departs

    @property
    def start(self):
        return self.departs if self.arrives is None else self.arrives

    @property
    def end(self):
        return self.arrives if self.departs is None else self.departs


def stays_of(docker):
    """The stays of a day. An arrival and the next departure with the same UID, platform and suffix make one stay. But if one train ends here by the arrival,
    and another train starts here by the departure, there are two stays."""
    stays, waiting = [], {}
    for line in docker.lines:
        stay = Stay(line.platform, line.train, line.uid, line.stp, None, None)
        key = line.uid, line.platform, line.suffix
        if line.kind == "P":
            stays.append(stay._replace(arrives=line.half_minutes, departs=line.half_minutes))
        elif line.kind == "A":
            waiting[key] = len(stays), line.destination == docker.tiploc
            stays.append(stay._replace(arrives=line.half_minutes))
        elif line.kind == "D":
            at, ends = waiting.pop(key, (None, False))
            if at is None or ends and line.origin == docker.tiploc:
                stays.append(stay._replace(departs=line.half_minutes))
            else:
                stays[at] = stays[at]._replace(train=line.train, departs=line.half_minutes)
    return stays


def platform_order(platform):
    """Sorts platforms: numbers by value, then names, and at the end trains without a platform."""
    return platform == "", [(0, int(part)) if part.isdigit() else (1, part) for part in re.findall(r"\d+|\D+", platform)]


def in_lanes(stays):
    """The stays of a platform, divided into lanes so that none covers another or its label."""
    lanes = []
    for stay in sorted(stays, key=lambda stay: (stay.start, stay.end, stay.uid)):
        start, end = stay.start * STEP, max(stay.end * STEP, stay.start * STEP + 8) + len(stay.train) * LETTER + 8
        lane = next((lane for lane in lanes if lane[0] <= start), None)
        if lane is None:
            lane = [0, []]
            lanes.append(lane)
        lane[0] = end
        lane[1].append(stay)
    return [lane for _, lane in lanes]


def clock(half_minutes):
    return f"{half_minutes // 120:02}:{half_minutes // 2 % 60:02}{'½' if half_minutes % 2 else ''}"


def told(stay):
    """A stay in words, for a tooltip."""
    when = f"passes {clock(stay.start)}" if stay.passes else ", ".join(
        f"{word} {clock(at)}" for word, at in (("arrives", stay.arrives), ("departs", stay.departs)) if at is not None)
    return f"{stay.train} {stay.uid} {stay.stp}: {when}, {f'platform {stay.platform}' if stay.platform else 'no platform'}"


def shape(stay, top):
    """The shape of a stay: a tick, a bar, a triangle if the train starts here, or a square if it ends here. The train's identity follows."""
    x, colour = LEFT + stay.start * STEP, COLOURS.get(stay.stp, "#cc79a7")
    middle, width = top + LANE // 2, max((stay.end - stay.start) * STEP, 3)
    if stay.passes:
        drawn, width = f'<path d="M{x} {top + 3}v{LANE - 6}" stroke="{colour}" stroke-width="3"/>', 2
    elif stay.arrives is None:
        drawn, width = f'<path d="M{x} {middle - 7}l8 7l-8 7z" fill="{colour}"/>', 8
    elif stay.departs is None:
        drawn, width = f'<rect x="{x - 4}" y="{middle - 5}" width="10" height="10" fill="{colour}"/>', 6
    else:
        drawn = f'<rect x="{x}" y="{top + 4}" width="{width}" height="{LANE - 8}" rx="2" fill="{colour}"/>'
    return f'<g><title>{escape(told(stay))}</title>{drawn}<text x="{x + width + 3}" y="{middle + 5}">{escape(stay.train)}</text></g>'


class Row(NamedTuple):
    """The lanes of a platform, and the position of the first one."""
    platform: str
    top: int
    lanes: list


def rows_of(docker):
    """The platforms from top to bottom, and their height in all."""
    stays = {}
    for stay in stays_of(docker):
        stays.setdefault(stay.platform, []).append(stay)
    rows, top = [], 30
    for platform in sorted(stays, key=platform_order):
        rows.append(Row(platform, top, in_lanes(stays[platform])))
        top += len(rows[-1].lanes) * LANE + 4
    return rows, top


def svg(width, height, title, drawn):
    return (
        f'<svg xmlns="http://www.w3.org/2000/svg" viewBox="0 0 {width} {height}" width="{width}" height="{height}" font-family="sans-serif" font-size="13" '
        f'fill="currentColor" role="img"><title>{escape(title)}</title>{drawn}</svg>\n'
    )


def names_drawn(rows):
    return "".join(f'<text x="8" y="{row.top + 15}" font-weight="bold">{escape(row.platform) or "none"}</text>' for row in rows)


def drawn_across(docker, name, rows, height):
    """The SVG of a docker's day. It is as high as its platforms, and as wide as 24 hours."""
    drawn = [
        f'<path d="M{LEFT + hour * 120 * STEP} 20V{height}" stroke="currentColor" opacity=".2"/>'
        f'<text x="{LEFT + hour * 120 * STEP - 16}" y="15">{hour:02}:00</text>' for hour in range(25)
    ]
    drawn.append(names_drawn(rows))
    for row in rows:
        drawn.append(f'<path d="M0 {row.top - 2}H{WIDTH}" stroke="currentColor" opacity=".35"/>')
        drawn.extend(shape(stay, row.top + at * LANE) for at, lane in enumerate(row.lanes) for stay in lane)
    return svg(WIDTH, height, f"Platforms of {name}, {docker.date}", "".join(drawn))


def both(docker, name):
    """The names of the platforms by themselves, which stay in place while the graph is moved across; and the graph."""
    rows, height = rows_of(docker)
    return svg(LEFT - 10, height, "Platforms", names_drawn(rows)), drawn_across(docker, name, rows, height)


def graph(docker, name):
    """The graph by itself."""
    return both(docker, name)[1]
