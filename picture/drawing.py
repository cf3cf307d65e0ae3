"""Draws a trace as SVG: bands of lanes, a card for each entry, and a key below."""

from html import escape

from layout import bands, lanes, spots
from trace import CAUSES, MODES, REPLIES, REQUESTS

COLUMNS = 10
CARD_WIDTH = 104
CARD_HEIGHT = 74
GAP = 18
LANE_HEIGHT = CARD_HEIGHT + 26
LABEL_WIDTH = 104
BAND_GAP = 30
MARGIN = 28
HEAD = 74

INK = "#1d2733"
FAINT = "#66717f"
PAPER = "#fbfaf7"
LANE = "#f1eee7"
RULE = "#ddd8cc"
RED = "#c0392b"
GREEN = "#1e8a5a"

SESSIONS = ["#2b6cb0", "#d2762a", "#7b5cc4", "#16898f", "#b5457f", "#7d7a2c", "#4a5a70", "#a0522d"]

STYLE = """
text { font-family: 'Inter', 'Helvetica Neue', 'DejaVu Sans', Arial, sans-serif; fill: %s; }
.title { font-size: 19px; font-weight: 700; }
.note { font-size: 12px; fill: %s; }
.lane { font-size: 13px; font-weight: 600; }
.small { font-size: 11px; fill: %s; }
.who { font-size: 11px; font-weight: 700; fill: #fff; }
.what { font-size: 13px; font-weight: 600; }
.came { font-size: 11.5px; }
""" % (INK, FAINT, FAINT)


def colour(session):
    return SESSIONS[(session - 1) % len(SESSIONS)]


def counted(number, word):
    return f"{number} {word}" if number == 1 else f"{number} {word}s"


def text(x, y, words, kind, anchor="start", fill=None):
    shade = f' style="fill:{fill}"' if fill else ""
    return f'<text x="{x}" y="{y}" class="{kind}" text-anchor="{anchor}"{shade}>{escape(words)}</text>'


def came_of(entry):
    """What the card says of the reply."""
    if entry.is_locked:
        return "Locked"
    if entry.is_quantum and REPLIES[entry.reply] in ("ended", "redrive", "row", "no row"):
        if entry.changed:
            return f"{entry.changed} changed"
        return counted(entry.rows, "row")
    if REPLIES[entry.reply] in ("done", "floor"):
        return ""
    return REPLIES[entry.reply]


def tip_of(entry):
    """The words that show under the pointer."""
    said = f"session {entry.session}, attempt {entry.ordinal}, sync {entry.sync}: {REQUESTS[entry.request]}"
    said += f", {REPLIES[entry.reply]}"
    if CAUSES[entry.cause]:
        said += f" ({CAUSES[entry.cause]})"
    if MODES[entry.mode]:
        said += f", asks for {MODES[entry.mode]}"
    return f"{said}; partition {entry.part}, place {entry.place}, rows {entry.rows}, changed {entry.changed}"


def outline(x, y, entry):
    """The card's shape: a redrive points on, and what goes on with it is notched."""
    right = x + CARD_WIDTH
    bottom = y + CARD_HEIGHT
    middle = y + CARD_HEIGHT / 2
    point = f"L {right - 9} {y} L {right} {middle} L {right - 9} {bottom}"
    side = point if entry.is_redrive else f"L {right} {y} L {right} {bottom}"
    notch = f"L {x} {bottom} L {x + 9} {middle} Z" if entry.goes_on else f"L {x} {bottom} Z"
    return f"M {x} {y} {side} {notch}"


def padlock(x, y):
    """A closed lock, 12 wide and 14 high."""
    return (
        f'<path d="M {x + 3} {y + 6} v -2 a 3 3 0 0 1 6 0 v 2" fill="none" stroke="{RED}" stroke-width="1.8"/>'
        f'<rect x="{x + 0.5}" y="{y + 6}" width="11" height="8" rx="1.6" fill="{RED}"/>'
    )


def tick(x, y):
    """A tick in a disc, for a commit."""
    return (
        f'<circle cx="{x}" cy="{y}" r="9" fill="{GREEN}"/>'
        f'<path d="M {x - 4} {y} l 3 3.4 l 5.4 -6.6" fill="none" stroke="#fff" stroke-width="2" '
        f'stroke-linecap="round" stroke-linejoin="round"/>'
    )


def back(x, y):
    """An arrow that turns back, for an undo."""
    return (
        f'<circle cx="{x}" cy="{y}" r="9" fill="{FAINT}"/>'
        f'<path d="M {x + 4.4} {y + 3.4} v -3.2 a 2.4 2.4 0 0 0 -2.4 -2.4 h -5 m 2.6 -2.8 l -2.8 2.8 l 2.8 2.8" '
        f'fill="none" stroke="#fff" stroke-width="1.7" stroke-linecap="round" stroke-linejoin="round"/>'
    )


def note_of(entry):
    """What the card says below: the cause of a redrive, or the mode of the lock that was asked for."""
    if CAUSES[entry.cause]:
        return f"redrive: {CAUSES[entry.cause]}"
    return f"asks for {MODES[entry.mode]}" if MODES[entry.mode] else ""


def mark(x, y, entry):
    """What tells a commit, an undo and an answer Locked apart at a glance."""
    right = x + CARD_WIDTH
    if entry.is_commit:
        return tick(right - 18, y + 52)
    if entry.is_undo:
        return back(right - 18, y + 52)
    return padlock(right - 25, y + 38) if entry.is_locked else ""


def card(x, y, entry):
    """One entry: its session and attempt on a coloured head, what was asked, and what came of it."""
    shade = colour(entry.session)
    edge = RED if entry.is_locked else shade
    paper = "#fdf0ee" if entry.is_locked else "#ffffff"
    name = f"clip-{entry.part}-{entry.place}"
    shape = outline(x, y, entry)
    inset = 12 if entry.goes_on else 9
    came = came_of(entry)
    return "".join(
        [
            f"<g><title>{escape(tip_of(entry))}</title>",
            f'<clipPath id="{name}"><path d="{shape}"/></clipPath>',
            f'<path d="{shape}" fill="{paper}"/>',
            f'<rect x="{x}" y="{y}" width="{CARD_WIDTH}" height="18" fill="{shade}" clip-path="url(#{name})"/>',
            f'<path d="{shape}" fill="none" stroke="{edge}" stroke-width="1.4" stroke-linejoin="round"/>',
            text(x + 9, y + 13, f"S{entry.session}", "who"),
            text(x + CARD_WIDTH - 12, y + 13, f"attempt {entry.ordinal}", "who", "end"),
            text(x + inset, y + 35, REQUESTS[entry.request].capitalize(), "what"),
            text(x + inset, y + 52, came, "came", fill=RED if entry.is_locked else None),
            text(x + 9, y + 67, note_of(entry), "small"),
            mark(x, y, entry),
            "</g>",
        ]
    )


def corner(spot, top):
    """The upper left corner of a spot's card."""
    x = MARGIN + LABEL_WIDTH + GAP + spot.column * (CARD_WIDTH + GAP)
    y = top + spot.entry.part * LANE_HEIGHT + (LANE_HEIGHT - CARD_HEIGHT) / 2
    return x, y


def thread(first, second, top):
    """The line from one entry of a session to the next, behind the cards."""
    x1, y1 = corner(first, top)
    x2, y2 = corner(second, top)
    x1, y1, y2 = x1 + CARD_WIDTH, y1 + CARD_HEIGHT / 2, y2 + CARD_HEIGHT / 2
    bend = max(GAP, (x2 - x1) / 2)
    return (
        f'<path d="M {x1} {y1} C {x1 + bend} {y1} {x2 - bend} {y2} {x2} {y2}" fill="none" '
        f'stroke="{colour(first.entry.session)}" stroke-width="2" stroke-opacity="0.45"/>'
    )


def threads(band, top):
    """The threads of all sessions within a band."""
    drawn = []
    for session in sorted({spot.entry.session for spot in band}):
        own = sorted((spot for spot in band if spot.entry.session == session), key=lambda spot: spot.entry.sync)
        drawn.extend(thread(first, second, top) for first, second in zip(own, own[1:]))
    return drawn


def ground(count, width, top, served):
    """The lanes of a band, with their names."""
    drawn = []
    for part in range(count):
        y = top + part * LANE_HEIGHT
        drawn.append(
            f'<rect x="{MARGIN}" y="{y + 3}" width="{width - 2 * MARGIN}" height="{LANE_HEIGHT - 6}" rx="8" fill="{LANE}"/>'
        )
        drawn.append(text(MARGIN + 14, y + LANE_HEIGHT / 2 - 2, f"Partition {part}", "lane"))
        drawn.append(text(MARGIN + 14, y + LANE_HEIGHT / 2 + 15, f"{served[part]} served", "small"))
    return drawn


def end_of(attempt):
    """How an attempt ended, in words."""
    outcome, _, rest = attempt.outcome.partition(" ")
    said = {"COMMITTED": "committed with stamp", "ROLLEDBACK": "rolled back", "ABORTED": "aborted by"}
    return f"{attempt.ordinal} {said.get(outcome, outcome)} {rest}".rstrip()


def key_lines(trace):
    """For each session what became of its attempts."""
    sessions = sorted({e.session for e in trace.entries} | {a.session for a in trace.attempts})
    for session in sessions:
        yield session, [end_of(a) for a in trace.attempts if a.session == session]


def shortened(ends):
    """At most four of the ends, and how many more there are."""
    said = ", ".join(ends[:4])
    return f"{said}, and {len(ends) - 4} more" if len(ends) > 4 else said


def key(trace, top):
    """The sessions with their colours and the ends of their attempts, and what the marks mean."""
    drawn = []
    y = top
    for session, ends in key_lines(trace):
        drawn.append(f'<rect x="{MARGIN}" y="{y - 12}" width="30" height="17" rx="4" fill="{colour(session)}"/>')
        drawn.append(text(MARGIN + 15, y + 1, f"S{session}", "who", "middle"))
        drawn.append(text(MARGIN + 40, y + 1, f"attempt {shortened(ends)}" if ends else "no attempt", "came"))
        y += 24
    y += 8
    drawn.append(tick(MARGIN + 9, y))
    drawn.append(text(MARGIN + 25, y + 4, "commit", "note"))
    drawn.append(back(MARGIN + 99, y))
    drawn.append(text(MARGIN + 115, y + 4, "undo", "note"))
    drawn.append(padlock(MARGIN + 172, y - 8))
    drawn.append(text(MARGIN + 191, y + 4, "answered Locked", "note"))
    drawn.append(text(MARGIN + 312, y + 4, "a pointed card is a redrive; a notched one goes on with it", "note"))
    return drawn, y + 26


def heading(trace):
    quanta = sum(entry.is_quantum for entry in trace.entries)
    locked = sum(entry.is_locked for entry in trace.entries)
    commits = sum(attempt.outcome.startswith("COMMITTED") for attempt in trace.attempts)
    sessions = len({attempt.session for attempt in trace.attempts})
    return (
        f"{counted(lanes(trace.entries), 'partition')}, {counted(sessions, 'session')}: {quanta} quanta, "
        f"{locked} answered Locked, {counted(commits, 'commit')}"
    )


def svg(trace):
    """The picture of a trace, as one SVG element that stands by itself."""
    placed = spots(trace.entries)
    most = max((spot.column for spot in placed), default=0) + 1
    columns = max(5, min(COLUMNS, most))
    cut = bands(placed, columns)
    count = lanes(trace.entries)
    served = [sum(entry.part == part for entry in trace.entries) for part in range(count)]
    width = 2 * MARGIN + LABEL_WIDTH + GAP + columns * (CARD_WIDTH + GAP)
    drawn = [text(MARGIN, 38, "What the partitions served", "title"), text(MARGIN, 58, heading(trace), "note")]
    top = HEAD
    for band in cut:
        drawn.extend(ground(count, width, top, served))
        drawn.extend(threads(band, top))
        drawn.extend(card(*corner(spot, top), spot.entry) for spot in band)
        top += count * LANE_HEIGHT + BAND_GAP
    legend, height = key(trace, top)
    drawn.extend(legend)
    return (
        f'<svg xmlns="http://www.w3.org/2000/svg" viewBox="0 0 {width} {height}" width="{width}" height="{height}" '
        f'role="img" aria-label="{escape(heading(trace))}"><style>{STYLE}</style>'
        f'<rect width="{width}" height="{height}" rx="12" fill="{PAPER}" stroke="{RULE}"/>'
        + "\n".join(drawn)
        + "</svg>\n"
    )
