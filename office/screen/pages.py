"""Makes what the screen shows of a STATE: the page of a docker and its other forms, by asking a reader of the STATE."""
import datetime
import hashlib
import pathlib
import threading
import zoneinfo
from typing import Callable, NamedTuple, Optional

import bank_holidays
import calls
import changes
import days
import details
import dockers
import finding
import flask
import forms
import graph
import journeys
import lines
import names
import news
import origins
import rows
import train_forms
import trains
import views
from station_office import printed, thinned

HERE = pathlib.Path(__file__).resolve().parent
ZONE = zoneinfo.ZoneInfo("Europe/London")
# The list of the next trains has tomorrow's trains up to this time in half minutes, and at least this number of tomorrow's trains.
EARLY, LEAST = 6 * 120, 40
STYLE, SCRIPT, SEARCH = ((HERE / name).read_text(encoding="utf-8") for name in ("screen.css", "screen.js", "search.js"))
# The number of dockers whose changes are kept.
COMPARED = 24
# Identifies the version of the screen. A page that another version made is fetched again.
VERSION = hashlib.sha256(b"".join(path.read_bytes() for path in sorted(HERE.iterdir()) if path.is_file())).hexdigest()[:16]


def quoted(text):
    """A text as a string of a style sheet."""
    return '"' + "".join(letter if letter.isalnum() or letter == " " else f"\\{ord(letter):x} " for letter in text) + '"'


def paper_style(heading, foot):
    """The margins of each sheet of paper: the heading and the sheet's number at the head, and at the foot how much is known."""
    return f'@page {{ @top-left {{ content: {quoted(heading)} }} @top-right {{ content: "page " counter(page) " of " counter(pages) }} @bottom-left {{ content: {quoted(foot)} }} }}'


def tag_of(*parts):
    """A text that changes whenever one of these texts does."""
    return hashlib.sha256(b"\0".join(hashlib.sha256(part).digest() for part in parts)).hexdigest()[:32]


def long_day(day):
    return day.strftime("%A %-d %B %Y")


def early_part(those):
    """Only the first rows of a docker."""
    return [call for number, call in enumerate(those) if call.line.half_minutes < EARLY or number < LEAST]


class Refused(Exception):
    """An answer of docker with another status than 0."""

    def __init__(self, answer):
        super().__init__(answer)
        self.answer = answer


class Nowhere(Exception):
    """There is no such page. `offers` has places whose names or codes are like the word that was asked for."""

    def __init__(self, line, offers=()):
        super().__init__(line)
        self.line, self.offers = line, offers


class Pair(NamedTuple):
    """The text of a docker and of the permanent docker. The second is None if there is no desk that knows it. `earlier` is the docker before the last morning,
    with its moment; None if it wasn't kept."""
    tiploc: str
    date: str
    text: bytes
    permanent: Optional[bytes]
    earlier: Optional[tuple]

    def texts(self):
        return [self.text, self.permanent or b"", repr(self.earlier).encode()]


class Shown(NamedTuple):
    """The content to show of a docker or a train: its tag, and a function that makes its text. The text isn't made for a browser that already has the tag."""
    tag: str
    make: Callable
    paper: str = ""


class Day(NamedTuple):
    """A docker with the calls on it that a page shows. Also how it differs from the permanent timetable, what is new on it, and what its rows say of their trains."""
    docker: lines.Docker
    differing: Optional[changes.Changes]
    news: Optional[news.News]
    calls: list
    abouts: Optional[origins.Abouts]


class Screen:
    """Makes everything that is shown of a STATE, by asking a reader of it."""

    def __init__(self, reader, places, ahead):
        self.reader = reader
        self.places = places
        self.ahead = ahead
        self.folder = pathlib.Path(reader.state).parent
        # The last text of `places`, and the names in it.
        self.read = b"", names.names_of(b"")
        # For each tag, the changes that were found when its dockers were last compared.
        self.compared = {}
        # For each tag, what the rows of its docker say of their trains.
        self.said = {}
        self.turn = threading.Lock()

    def now(self):
        return (datetime.datetime.now(datetime.timezone.utc) + self.ahead).astimezone(ZONE)

    def today(self):
        return self.now().date().isoformat()

    def asked(self, answer):
        """The text of an answer, which must have status 0."""
        if answer.status != 0:
            raise Refused(answer)
        return answer.text

    def named(self):
        """The names of places. They are read once for each list that the desk gives. Without a list there are no names."""
        answer = self.reader.places()
        text = answer.text if answer.status == 0 else b""
        before, named = self.read
        if text != before:
            named = names.names_of(text)
            self.read = text, named
        return named

    def known(self):
        """What is known about days, and the texts from which it was read."""
        files, coverage = self.asked(self.reader.files()), self.reader.known()
        text = coverage.text if coverage.status == 0 else b""
        return days.Days(dockers.extracts_of(files), dockers.coverage_of(text) if text else None), files + text

    def docker_of(self, text):
        docker = lines.docker_of(text)
        self.named().learns(docker.tiploc, docker.description)
        return docker

    def pair(self, tiploc, date):
        """The docker of a place on a day, the permanent docker, and the docker before the last morning."""
        text, permanent = self.asked(self.reader.print_docker(tiploc, date)), self.reader.permanent(tiploc, date)
        kept = printed.before(printed.mornings(self.folder)[1:], tiploc, date)
        earlier = (kept[0].moment, kept[1]) if kept else None
        return Pair(tiploc, date, text, None if permanent.status in dockers.LACKING else self.asked(permanent), earlier)

    def origins(self, pair, is_permanent=False):
        """What each line of a docker, or of the permanent docker, was made from. None if there is no desk that knows, or if STATE changed since the docker was read."""
        answer = self.reader.detailed(pair.tiploc, pair.date, is_permanent)
        is_same = answer.status == 0 and origins.docker_in(answer.text) == (pair.permanent if is_permanent else pair.text)
        return origins.origins_in(answer.text) if is_same else None

    def abouts(self, docker, pair, differing, told):
        """What the rows of a docker say of their trains; None if it isn't known. It is remembered until STATE changes."""
        tag = tag_of(*pair.texts()[:2], told)
        with self.turn:
            if tag not in self.said and (own := self.origins(pair)) is not None:
                before = (self.origins(pair, is_permanent=True) if differing else None) or ()
                if len(self.said) == COMPARED:
                    del self.said[next(iter(self.said))]
                self.said[tag] = origins.abouts_of(docker, own, self.docker_of(pair.permanent).lines if before else (), before, differing)
            return self.said.get(tag)

    def thinned(self, place, *dates):
        """The dockers of a place on these days that a change left with few lines. Their day isn't over."""
        return [it for it in thinned.thinned_in(self.folder, self.now().date()) if it.place == place and it.day in dates]

    def following(self, tiploc, day):
        """The dockers of the next day; None if they are refused."""
        try:
            return self.pair(tiploc, (day + datetime.timedelta(1)).isoformat())
        except Refused:
            return None

    def differing(self, pair, told):
        """The changes on a docker. They are remembered until STATE changes."""
        if pair.permanent is None:
            return None
        tag = tag_of(pair.text, pair.permanent, told)
        with self.turn:
            if tag not in self.compared:
                # The oldest remembered changes are dropped.
                if len(self.compared) == COMPARED:
                    del self.compared[next(iter(self.compared))]
                self.compared[tag] = changes.changes_of(changes.Timetable(self.reader, pair.tiploc, pair), pair.date)
            return self.compared[tag]

    def day(self, pair, told, view):
        """The calls of a docker that a reader chose. Calls are put together before any is left out."""
        docker, differing = self.docker_of(pair.text), self.differing(pair, told)
        fresh = news.news_of(*pair.earlier, pair.text, differing) if pair.earlier else None
        abouts = self.abouts(docker, pair, differing, told)
        found = rows.rows_of(docker, differing, fresh, abouts)
        those = [calls.Call((row,)) for row in found] if view.is_lines else calls.calls_of(found, docker.tiploc)
        if view.only == "changes":
            those = [call for call in those if call.change]
        elif view.only == "new":
            lost = news.rows_of(fresh)
            others = [calls.Call((row,)) for row in lost] if view.is_lines else calls.calls_of(lost, docker.tiploc)
            those = sorted([*(call for call in those if call.is_new), *others], key=lambda call: changes.place_in_day(call.line))
        return Day(docker, differing, fresh, calls.chosen(those, view), abouts)

    def meant(self, word):
        """The code that a word in an address means: the code itself, also in small letters, or the busiest place with this CRS code."""
        named, code = self.named(), word.upper()
        if word in named.places or not named:
            return word
        return code if code in named.places else next((place.tiploc for place in named.of_crs(code)), word)

    def looks_for(self, pairs, known):
        """Refuses a place that no extract has, and that no train calls at."""
        if known.newest and not any(dockers.description_of(pair.text) or any(text.count(b"\n") > 2 for text in (pair.text, pair.permanent or b"")) for pair in pairs):
            word = pairs[0].tiploc
            raise Nowhere(f"No extract that was taken has a place with the code {word}, and no train calls there on this day.", self.named().near(word))

    def page(self, tiploc, date, view=views.View(), is_alone=False):
        """The page of a docker, or of a part of it. A page that needs no server has no script. Without a date, the page is of today, and continues with
        tomorrow."""
        now = self.now()
        day = now.date() if date is None else dockers.is_date(date) and datetime.date.fromisoformat(date)
        pair = self.pair(tiploc, day.isoformat() if day else date)
        (known, told), named = self.known(), self.named()
        after = self.following(tiploc, day) if date is None else None
        self.looks_for([pair, *([after] if after else [])], known)
        if view.only == "changes" and pair.permanent is None:
            raise Refused(dockers.Answer(dockers.UNKNOWN, b"what differs needs a program desk that knows what is permanent\n"))
        if view.operators and self.reader.detailed(tiploc, pair.date).status in dockers.LACKING:
            raise Refused(dockers.Answer(dockers.UNKNOWN, b"a choice of operators needs a program desk that knows what a docker was made from\n"))
        if view.only == "new" and pair.earlier is None:
            raise Nowhere("No morning before the last one kept this docker, so it isn’t known what is new.")
        named.learns(tiploc, dockers.description_of(pair.text))
        labels = names.Labels(named, view.is_codes)
        heading = f"{dict(zip(views.LISTS, ('Changes at ', 'New at '))).get(view.only, '')}{labels.of(tiploc)}, {long_day(day)}"
        few, operators = self.thinned(tiploc, pair.date, *([after.date] if after else [])), details.operators_in(self.folder)
        lost = "".join(it.told(" It") + "." for it in few if it.day == pair.date)
        foot = f"Made {now:%Y-%m-%d %H:%M}. {known.short()} {known.cover(pair.date)}.{lost}"
        texts = [text for one in (pair, after) if one for text in one.texts()]
        tag = tag_of(*texts, told, named.tag, VERSION.encode(), now.date().isoformat().encode(), repr(view).encode(), repr((few, operators)).encode())
        paper = paper_style(heading, foot)
        context = {
            "day": day, "now": now, "known": known, "labels": labels, "view": view, "heading": heading, "paper": paper, "tag": tag, "is_alone": is_alone, "operator_names": operators,
            "few": [(it, datetime.date.fromisoformat(it.day)) for it in few], "is_sure": known.is_sure(pair.date, now) and not lost, "holiday": bank_holidays.note(day, long_day(day)) if day else "",
        }
        return Shown(tag, lambda: self.rendered(pair, after, told, context), paper)

    def rendered(self, pair, after, told, context):
        """The HTML of a page of a docker."""
        view, labels, day, now, is_alone = (context[name] for name in ("view", "labels", "day", "now", "is_alone"))
        own, tomorrow = self.day(pair, told, view), self.day(after, told, view) if after else None
        ahead = early_part(tomorrow.calls) if tomorrow and not view.only else []
        is_other, is_linked = not is_alone and day != now.date(), self.reader.has_trains and not is_alone
        has_notes, more = any(call.change or call.is_new for call in (*own.calls, *ahead)), rows.columns_of((*own.calls, *ahead))
        from_now = None if is_other or is_alone or view.only else now.hour * 120 + now.minute * 2
        first = view.half_minutes if view.at else from_now
        made, later = (rows.Rows(it.docker, labels, is_linked, has_notes, more, context["operator_names"]) if it else None for it in (own, tomorrow))
        return flask.render_template(
            "docker.html", **context, docker=own.docker, differing=own.differing, news=own.news, rows=made.all(own.calls, now=first, is_lines=view.is_lines), has_notes=has_notes,
            next=tomorrow and tomorrow.docker, next_rows=later.all(ahead, 2880, is_lines=view.is_lines) if ahead else "",
            heads=(rows.LINES if view.is_lines else rows.CALLS) + more, operators=own.abouts.operators if own.abouts else [], before=day - datetime.timedelta(1), after=day + datetime.timedelta(1), is_other=is_other, version=VERSION, ahead=self.ahead,
            platforms=sorted({line.platform for line in own.docker.lines} - {""}, key=graph.platform_order), tracks=sorted({line.line for line in own.docker.lines} - {""}),
            drawn=graph.both(own.docker, labels.of(pair.tiploc)) if is_alone else None, style=STYLE, script="" if is_alone else SCRIPT, text="",
        )

    def form(self, form, tiploc, date):
        """A docker in another form than a page."""
        if form == "txt":
            text = self.asked(self.reader.print_docker(tiploc, date))
            return Shown(tag_of(text), lambda: text)
        pair = self.pair(tiploc, date)
        docker, named = self.docker_of(pair.text), self.named()
        if form == "svg":
            return Shown(tag_of(pair.text, VERSION.encode()), lambda: graph.graph(docker, named.of(tiploc)))
        known, told = self.known()
        few, operators = self.thinned(tiploc, date), details.operators_in(self.folder)
        tag = tag_of(*pair.texts(), told, named.tag, VERSION.encode(), repr((few, operators)).encode())

        def make():
            timetable, found, kinds = changes.Timetable(self.reader, tiploc), self.origins(pair), origins.Kinds(operators)
            starts = [origin.start for origin in found] if found is not None else timetable.starts_of(docker) if self.reader.has_trains else [""] * len(docker.lines)
            differing = self.differing(pair, told)
            if form == "csv":
                return forms.csv_of(docker, starts, named, differing)
            fresh = news.news_of(*pair.earlier, pair.text, differing) if pair.earlier else None
            schedules = details.Schedules(timetable.answers, operators, [tiploc])
            of_train = [kinds.of_train(*one) for one in zip(docker.lines, found)] if found is not None else [schedules.of(*one, docker) for one in zip(docker.lines, starts)]
            return forms.json_of(docker, starts, known, named, differing, fresh, few, of_train, self.now())

        return Shown(tag, make)

    def journey(self, uid, date):
        """A train that starts on a day, with what was planned for it."""
        text = self.asked(self.reader.train(uid, date))
        train = trains.train_of(text)
        planned = journeys.planned_of(self.reader, train) if train.state == "CANCELLED" or train.stp == "O" else None
        return journeys.Journey(text, train, planned, details.operators_in(self.folder))

    def train(self, uid, date, is_codes=False):
        """The page of a train that starts on a day."""
        journey = self.journey(uid, date)
        (known, told), named, now, train, shown = self.known(), self.named(), self.now(), journey.train, journey.shown
        along = journeys.dockers_along(self.reader, train)
        stops = [(stop, list(journeys.links_of(train, stop.call, along)) if stop.call and not journey.is_cancelled else []) for stop in journeys.stops_of(train, journey.planned)]
        labels, day = names.Labels(named, is_codes), train.start
        heading = f"{shown.identity} {uid}, {long_day(day)}".strip()
        paper = paper_style(heading, f"Made {now:%Y-%m-%d %H:%M}. {known.short()} {known.cover(train.date)}.")
        tag = tag_of(journey.text, told, named.tag, repr((stops, journey.planned, journey.operators)).encode(), VERSION.encode(), now.date().isoformat().encode(), str(is_codes).encode())

        def make():
            return flask.render_template(
                "train.html", train=train, shown=shown, planned=journey.planned, stops=stops, labels=labels, known=known, day=day, before=day - datetime.timedelta(1),
                after=day + datetime.timedelta(1), now=now, is_other=day != now.date(), indicators=trains.INDICATORS, weekdays=trains.weekdays(train.days), style=STYLE, paper=paper,
                heading=heading, sentence=journeys.sentence(shown, labels, journey.vehicle, journey.is_cancelled), text="", query="", on=train.date if day != now.date() else "",
                facts=journey.facts(), changed=journey.changes(), holiday=bank_holidays.note(day, long_day(day)),
            )

        return Shown(tag, make, paper)

    def train_form(self, form, uid, date):
        """A train in another form than a page."""
        journey = self.journey(uid, date)
        if form == "txt":
            return Shown(tag_of(journey.text), lambda: journey.text)
        (known, told), named = self.known(), self.named()
        tag = tag_of(journey.text, told, named.tag, repr((journey.planned, journey.operators)).encode(), VERSION.encode())
        if form == "csv":
            return Shown(tag, lambda: train_forms.csv_of(journey, named))
        return Shown(tag, lambda: train_forms.json_of(journey, known, named, self.now()))

    def list_of_places(self):
        """The codes in the office's list, each with the name of its place. If there are no names, the description of the place is used, if it is known without
        reading STATE."""
        codes = self.codes()
        return None if codes is None else [(code, self.name_of(code)) for code in codes]

    def thinned_places(self):
        """The thinned dockers of the office's places, by place."""
        found = {}
        for it in thinned.thinned_in(self.folder, self.now().date()):
            found.setdefault(it.place, []).append(it)
        return found

    def codes(self):
        """The codes in the office's list of places; None if there is no list."""
        try:
            words = [line.strip() for line in self.places.read_text(encoding="utf-8").splitlines()]
        except OSError:
            return None
        return [code for code in words if code and not code.startswith("#")]

    def name_of(self, code):
        """The name of a place: empty if the list of places doesn't have it, and None if there is no list and no docker of the place was read."""
        named = self.named()
        if named:
            return named.of(code) if code in named.places else ""
        answer = self.reader.at_hand(code, self.today())
        return names.readable(dockers.description_of(answer.text)) if answer and answer.status == 0 else None

    def finder(self, text, is_codes, date="", near=""):
        """The page with the office's places, and with what matches a text: trains of a day, and places. `near` is the place from whose page the text came."""
        named, sought = self.named(), text.strip()
        found = named.find(sought)
        day = date if dockers.is_date(date) else self.today()
        trains_found = finding.trains_of(self.reader, sought, day, near, self.codes() or ())
        code = sought.upper() if dockers.is_tiploc(sought.upper()) and sought.upper() not in named.places else None
        return flask.render_template(
            "places.html", places=self.list_of_places(), few=self.thinned_places(), labels=names.Labels(named, is_codes), text=text, sought=sought, found=found[:finding.SHOWN], number=len(found), code=code,
            trains=trains_found.trains, way=trains_found.way, is_whole=trains_found.is_whole, refused=trains_found.refused, day=datetime.date.fromisoformat(day), today=self.now(),
            on=date if date and day == date else "", style=STYLE, script=SEARCH, is_finder=True, query=f"?q={rows.part(text)}" if text else "",
        )
