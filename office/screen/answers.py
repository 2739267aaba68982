"""What the server answers to each address: a page or another form of a docker, a page that says why there is none, or another address."""
import base64
import gzip
import hashlib

import dockers
import finding
import flask
import journeys
import pages
import rows
import trains
import views

FORMS = {"txt": "text/plain", "csv": "text/csv", "json": "application/json", "svg": "image/svg+xml"}
# The forms of a train.
OF_TRAIN = ("txt", "csv", "json")
# The HTTP status for each status of docker.
STATUSES = {1: 409, 2: 400, 3: 503, 4: 503, dockers.UNKNOWN: 501}
# What pages may show for a place, and the number of seconds for which a browser keeps the reader's choice.
CHOICES = ("names", "codes")
REMEMBERED = 400 * 86400


def policy(paper):
    """A page may use only its own styles and scripts, and ask only this server."""
    styles, scripts = (" ".join(f"'sha256-{base64.b64encode(hashlib.sha256(text.encode()).digest()).decode()}'" for text in texts) for texts in ((pages.STYLE, paper), (pages.SCRIPT, pages.SEARCH)))
    return f"default-src 'none'; style-src {styles}; script-src {scripts}; connect-src 'self'; img-src data:; base-uri 'none'; form-action 'self'; frame-ancestors 'none'"


def shows_codes():
    """Whether the reader chose codes instead of names: by the address, or by the cookie of an earlier choice."""
    chosen = flask.request.args.get("show")
    return (chosen if chosen in CHOICES else flask.request.cookies.get("show")) == "codes"


def is_known(tag):
    """Whether the browser already has the content with this tag."""
    return tag is not None and flask.request.if_none_match.contains_weak(tag)


def answered(body, kind, tag=None, status=200, paper=""):
    """A response with a tag. Before each use of a kept copy, the browser asks whether the tag is still the same. The response is compressed if the browser accepts that."""
    response = flask.Response(status=status, content_type=f"{kind}; charset=utf-8")
    # A page shows the time, so the browser must not keep the page. The page's script asks for a newer page by the tag.
    kept = "no-store" if kind == "text/html" else "no-cache"
    response.headers.update({"Cache-Control": kept, "X-Content-Type-Options": "nosniff", "Referrer-Policy": "no-referrer", "Vary": "Accept-Encoding"})
    if kind == "text/html":
        response.headers["Vary"] += ", Cookie"
        response.headers["Content-Security-Policy"] = policy(paper)
        # A request that only asks for a newer version doesn't change the choice.
        if flask.request.args.get("show") in CHOICES and not flask.request.if_none_match:
            response.set_cookie("show", flask.request.args["show"], max_age=REMEMBERED, httponly=True, samesite="Lax")
    is_packed = flask.request.accept_encodings.quality("gzip") > 0
    if tag is not None:
        response.set_etag(tag, weak=is_packed)
    if is_known(tag):
        response.status_code = 304
        return response
    text = body() if callable(body) else body
    content = text.encode() if isinstance(text, str) else text
    if is_packed:
        response.headers["Content-Encoding"] = "gzip"
        content = gzip.compress(content, 6, mtime=0)
    response.set_data(content)
    return response


def parted(word):
    """A part of an address without its ending, and the form that the ending names."""
    name, dot, form = word.rpartition(".")
    return (name, form) if dot and form in FORMS else (word, None)


def moved(address, words=""):
    """Redirects to another address, with these words at its end, such as a query."""
    return flask.redirect(f"{address}{words}", 303)


def refusal(answer, form):
    """The response that says why docker gives no answer."""
    line = answer.text.decode("utf-8", "replace").strip()
    status = STATUSES.get(answer.status, 503)
    response = nothing(line, status, form, dockers.advice(line))
    if status == 503:
        response.headers["Retry-After"] = "60"
    return response


def nothing(line, status, form=None, advice="", offers=()):
    """A response that says why there is no page, and offers places instead."""
    if form is not None:
        return answered(f"{line}\n", "text/plain", status=status)
    page = flask.render_template("fault.html", line=line, advice=advice, offers=offers, style=pages.STYLE, status=status, labels=None, text="")
    return answered(page, "text/html", status=status)


class Addresses:
    """The addresses of a screen."""

    def __init__(self, screen):
        self.screen = screen

    def docker(self, tiploc, date, form, only=""):
        """A docker as a page, or in another form. A CRS code, and a TIPLOC in small letters, lead to the place that they mean."""
        words = flask.request.args
        place = self.screen.meant(tiploc)
        if place != tiploc:
            return moved(address_of(place, date, form, only), query())
        if "date" in words:
            return self.chosen(place, views.view_of(words, False, words.get("only", "")))
        try:
            view = views.view_of(words, shows_codes(), only)
            shown = self.screen.page(place, date, view) if form is None else self.screen.form(form, place, date or self.screen.today())
        except pages.Refused as refused:
            return refusal(refused.answer, form)
        except pages.Nowhere as nowhere:
            return nothing(nowhere.line, 404, offers=nowhere.offers)
        return answered(shown.make, FORMS.get(form, "text/html"), shown.tag, paper=shown.paper)

    def chosen(self, place, view):
        """Leads from the form in which a reader chose a day to that day's page."""
        date = flask.request.args["date"]
        only = view.only if view.only in views.LISTS else ""
        is_today = not date or date == self.screen.today() and not only
        return moved(address_of(place, None if is_today else date, None, only), f"{view.query()}{'#now' if view.at else ''}")

    def places(self):
        words = flask.request.args
        return answered(self.screen.finder(words.get("q", "")[:finding.LONGEST], shows_codes(), words.get("on", ""), words.get("at", "")), "text/html")

    def of_today(self, word):
        tiploc, form = parted(word)
        return self.docker(tiploc, None, form)

    def of_day(self, tiploc, word):
        date, form = parted(word)
        return self.docker(tiploc, date, form)

    def of_list(self, tiploc, date, only):
        return self.docker(tiploc, date, None, only)

    def train(self, uid, word):
        date, form = parted(word)
        if form not in (None, *OF_TRAIN):
            return nothing(f"A train has no form {form}.", 404, form)
        # A row of a docker says when its train is here, but not on which day the train started.
        tiploc, _, time = flask.request.args.get("at", "").rpartition(".")
        try:
            if tiploc and dockers.is_date(date) and self.screen.reader.has_trains:
                start = journeys.start_of(self.screen.reader, uid, date, tiploc, time)
                return moved(f"/train/{rows.part(uid)}/{start}{f'.{form}' if form else f'#{rows.part(tiploc)}'}")
            shown = self.screen.train(uid, date, shows_codes()) if form is None else self.screen.train_form(form, uid, date)
        except pages.Refused as refused:
            return refusal(refused.answer, form)
        return answered(shown.make, FORMS.get(form, "text/html"), shown.tag, paper=shown.paper)


def address_of(tiploc, date, form, only):
    """The address of a place's docker."""
    return f"/{rows.part(tiploc)}{f'/{rows.part(date)}' if date else ''}{f'.{form}' if form else ''}{f'/{only}' if only else ''}"


def query():
    """The query of the request, with its `?`; empty if there is none."""
    words = flask.request.query_string.decode("ascii", "replace")
    return f"?{words}" if words else ""


def application(screen):
    app = flask.Flask(__name__, template_folder=pages.HERE, static_folder=None)
    app.jinja_options = {"trim_blocks": True, "lstrip_blocks": True}
    app.jinja_env.filters.update({"part": rows.part, "long_day": pages.long_day, "clock": trains.clock, "public_clock": trains.public_clock})
    of = Addresses(screen)
    app.get("/")(of.places)
    app.get("/<word>")(of.of_today)
    app.get("/<tiploc>/<word>")(of.of_day)
    app.get(f"/<tiploc>/<date>/<any({', '.join(views.LISTS)}):only>")(of.of_list)
    app.get("/train/<uid>/<word>")(of.train)
    return app
