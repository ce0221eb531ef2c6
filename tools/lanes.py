"""Draws a timeline: lanes of sessions side by side, a row for each label, and the labels' texts in a column beside."""

from typing import NamedTuple

import svg
from common import Refused
from reports import Label

# How wide a lane is, and where there are more than eight.
LANE, NARROW = 96, 40
# What is left for the cycle of a victim in the last lane.
GAP = 30
LEFT = 46
TOP = 62
BAR = 26
# How high a label's row is, with its text and without.
ROOMY, TIGHT = 20, 6
MOST_TEXTS = 400
LONGEST = 86
STYLE = (
    f"text{{{svg.FONT};font-size:11px}}"
    ".head{font-weight:bold;font-size:12px}.count{font-size:9px;fill:#606060;text-anchor:end}"
    ".small{font-size:10px}.number{font-size:10px;font-weight:bold;fill:#ffffff;text-anchor:middle}"
    f".lane{{stroke:{svg.FAINT}}}.guide{{stroke:#ececec}}"
    f".waiting{{stroke:{svg.RED};stroke-width:3.5}}.for{{stroke:{svg.RED};stroke-width:1.4}}"
    f".crossed{{stroke:{svg.RED};stroke-width:1.2}}.mark.rollback{{stroke-width:2.5;fill:none}}.red{{fill:{svg.RED}}}"
    ".label:hover .mark{stroke:#000000;stroke-width:3}.label:hover text{text-decoration:underline}"
)
LEGEND = (
    ("begin", "begin"), ("ask", "ask"), ("take", "take"), ("put", "put"), ("wait", "wait for whom"),
    ("answer", "answer"), ("commit", "commit, its place"), ("victim", "victim, crossed out"), ("rollback", "rollback"),
)
ENDINGS = {"commit": "committed", "victim": "the victim of a cycle of waits", "rollback": "rolled back"}


class Bar(NamedTuple):
    """A transaction: its session and number, the places of its first and last labels, and how it ended, if it did."""

    session: int
    number: int
    first: int
    last: int
    ending: str


def bars_of(labels):
    """The transactions of the labels."""
    bars, begun = [], {}
    for at, label in enumerate(labels):
        if label.kind == "begin":
            begun[label.session] = (label.number, at)
        elif label.kind in ENDINGS and label.session in begun:
            number, first = begun.pop(label.session)
            bars.append(Bar(label.session, number, first, at, label.kind))
    bars += [Bar(session, number, first, len(labels) - 1, "") for session, (number, first) in begun.items()]
    return bars


def next_of(labels):
    """For each label the place of the next one of its session; the last label's where there is none."""
    following, last = [len(labels) - 1] * len(labels), {}
    for at in reversed(range(len(labels))):
        following[at] = last.get(labels[at].session, len(labels) - 1)
        last[labels[at].session] = at
    return following


class Timeline:
    """The labels from one to another, counted from 1, of a report; with its script they tell the statements."""

    def __init__(self, report, script, first, last, title):
        self.labels, self.first, self.last, self.title = report.labels, first - 1, last - 1, title
        self.file, self.script = report.file, script
        self.sessions = sorted({label.session for label in self.labels})
        self.lane = LANE if len(self.sessions) <= 8 else NARROW
        self.right = LEFT + self.lane * len(self.sessions) + GAP
        self.has_texts = self.last - self.first < MOST_TEXTS
        self.step = ROOMY if self.has_texts else TIGHT
        self.bottom = TOP + (self.last - self.first + 1) * self.step

    def x(self, session):
        """The middle of a session's lane."""
        return LEFT + self.lane // 2 + self.sessions.index(session) * self.lane

    def y(self, at):
        """The middle of the row of a label, or the nearest one that is shown."""
        return TOP + (min(max(at, self.first), self.last) - self.first) * self.step + self.step // 2

    def colour(self, session):
        """The colour of a session."""
        return svg.session_colour(self.sessions.index(session))

    def is_shown(self, first, last):
        """Whether some label from one to another is shown."""
        return first <= self.last and self.first <= last

    # -- What stands under the marks ----------------------------------------------------------------------------------

    def lanes(self):
        """The lanes with their heads."""
        items = []
        for session in self.sessions:
            x = self.x(session)
            items.append(svg.line(x, TOP - 6, x, self.bottom, class_="lane"))
            words = f"session {session}" if self.lane == LANE else str(session)
            items.append(svg.text(x, TOP - 14, words, class_="head", text_anchor="middle", fill=self.colour(session)))
        return items

    def guides(self):
        """Lines from the lanes to the labels' texts."""
        if not self.has_texts:
            return []
        shown = range(self.first, self.last + 1)
        return [svg.line(LEFT - 6, self.y(at), self.right + 6, self.y(at), class_="guide") for at in shown]

    def bar(self, bar):
        """A transaction from its begin to its end."""
        x, top, bottom = self.x(bar.session) - BAR // 2, self.y(bar.first) - self.step // 2, self.y(bar.last)
        bottom += self.step // 2
        told = ENDINGS.get(bar.ending, "not ended")
        look = {"fill": self.colour(bar.session), "fill_opacity": "0.18", "stroke": self.colour(bar.session)}
        if bar.ending in ("victim", "rollback"):
            look = {"fill": "#e8e8e8", "stroke": svg.RED if bar.ending == "victim" else "#606060"}
            look["stroke_dasharray"] = "4 3"
        items = [svg.element("rect", title=f"session {bar.session} transaction {bar.number}: {told}", x=x, y=top,
                             width=BAR, height=bottom - top, rx=5, class_=f"bar {bar.ending or 'open'}", **look)]
        if bar.ending == "victim":
            items.append(svg.line(x, top, x + BAR, bottom, class_="crossed"))
            items.append(svg.line(x + BAR, top, x, bottom, class_="crossed"))
        if self.has_texts and self.first <= bar.first:
            items.append(svg.text(x + BAR + 4, self.y(bar.first) + 4, f"T{bar.number}", class_="small"))
        return items

    def bars(self):
        """The transactions that are shown."""
        return [item for bar in bars_of(self.labels) if self.is_shown(bar.first, bar.last) for item in self.bar(bar)]

    def wait(self, at, until):
        """A wait until its session goes on, with an arrow to each session that is waited for."""
        label = self.labels[at]
        x, y = self.x(label.session), self.y(at)
        items = [svg.line(x, y, x, self.y(until), class_="waiting")]
        if at < self.first:
            return items
        for other in label.others:
            if other not in self.sessions:
                raise Refused(self.file, 0, f"{label.text()}: no label is session {other}'s")
            side = BAR // 2 if self.x(other) < x else -BAR // 2
            items.append(svg.line(x, y, self.x(other) + side, y, class_="for", marker_end="url(#head)"))
        return items

    def waits(self):
        """The waits that are shown."""
        following, items = next_of(self.labels), []
        for at, label in enumerate(self.labels):
            if label.kind == "wait" and self.is_shown(at, following[at]):
                items += self.wait(at, following[at])
        return items

    # -- The marks ----------------------------------------------------------------------------------------------------

    def mark(self, label, x, y):
        """The mark of a label."""
        colour, size = self.colour(label.session), 5 if self.has_texts else 2.5
        if label.kind == "commit":
            ring = svg.element("circle", cx=x, cy=y, r=size + 4, fill=svg.GREEN, class_="mark commit")
            return ring + svg.text(x, y + 4, label.rest, class_="number")
        if label.kind == "victim":
            cross = f"M{x - 7} {y - 7}l14 14m0 -14l-14 14"
            words = svg.text(x + BAR // 2 + 4, y + 4, label.rest, class_="small red")
            return svg.element("path", d=cross, stroke=svg.RED, stroke_width=3, class_="mark victim") + words
        looks = {
            "begin": ("rect", {"x": x - 8, "y": y - 2, "width": 16, "height": 4, "fill": colour}),
            "ask": ("circle", {"cx": x, "cy": y, "r": size, "fill": "#ffffff", "stroke": colour, "stroke_width": 2}),
            "take": ("circle", {"cx": x, "cy": y, "r": size - 1, "fill": colour}),
            "put": ("rect", {"x": x - size, "y": y - size, "width": 2 * size, "height": 2 * size, "fill": colour}),
            "wait": ("circle", {"cx": x, "cy": y, "r": size, "fill": svg.RED}),
            "answer": ("path", {"d": f"M{x - size} {y - size + 1}h{2 * size}l-{size} {2 * size - 1}z", "fill": colour}),
            "rollback": ("path", {"d": f"M{x - 6} {y - 6}l12 12m0 -12l-12 12", "stroke": "#404040"}),
        }
        name, look = looks[label.kind]
        return svg.element(name, class_=f"mark {label.kind}", **look)

    def statement(self, label, transaction):
        """The statement that an ask is for, where the script is there."""
        try:
            return self.script.sessions[label.session][transaction - 1].statements[label.number - 1].text
        except (KeyError, IndexError):
            raise Refused(self.file, 0, f"{label.text()}: {self.script.file} has no such statement") from None

    def texts(self):
        """The text of each label, an ask's with its statement."""
        texts, transaction = [], {}
        for label in self.labels:
            if label.kind == "begin":
                transaction[label.session] = label.number
            told = ""
            if label.kind == "ask" and self.script is not None:
                told = ": " + self.statement(label, transaction.get(label.session, 0))
            texts.append(label.text() + told)
        return texts

    def marks(self):
        """The marks of the labels that are shown, with their texts."""
        texts, items = self.texts(), []
        for at in range(self.first, self.last + 1):
            label, y = self.labels[at], self.y(at)
            body = self.mark(label, self.x(label.session), y)
            if self.has_texts:
                short = texts[at] if len(texts[at]) <= LONGEST else texts[at][: LONGEST - 3] + ".."
                look = {"fill": svg.RED} if label.kind in ("wait", "victim") else {"fill": self.colour(label.session)}
                body += svg.text(LEFT - 10, y + 4, str(at + 1), class_="count")
                body += svg.text(self.right + 12, y + 4, short, **look)
            title = f"{at + 1}: {texts[at]}"
            items.append(svg.element("g", body, title=title, class_="label", data_label=at + 1))
        return items

    def draw(self):
        """The whole picture."""
        width = self.right + (12 + 7 * LONGEST if self.has_texts else 30)
        parts = (("lanes", self.lanes()), ("guides", self.guides()), ("bars", self.bars()), ("waits", self.waits()),
                 ("marks", self.marks()))
        items = [svg.arrow_heads("head", svg.RED), svg.text(LEFT, 22, self.title, class_="head")]
        items += [svg.element("g", "\n" + "\n".join(inner) + "\n", id=name) for name, inner in parts if inner]
        items += self.legend()
        return svg.picture(width, self.bottom + 40, STYLE, self.title, items)

    def legend(self):
        """What the marks mean, in one line under the lanes."""
        if not self.has_texts:
            return []
        items, x, y = [], LEFT, self.bottom + 24
        for kind, words in LEGEND:
            label = Label(self.sessions[0], kind, "1" if kind == "commit" else "")
            items += [self.mark(label, x, y), svg.text(x + 13, y + 4, words, class_="small")]
            x += 36 + 6 * len(words)
        return [svg.element("g", "".join(items), id="legend")]
