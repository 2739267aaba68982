"""Writes the manual pages docs/docker.1, docs/docker-desk.1, docs/station-office.1 and docs/station-office-screen.1.

The pages of docker and desk are made from MANUAL.md and FORMATS.md. The page of docker also has the first docker of README.md, the transcript of the example
office, and the table of what to do about each fault. The page of desk has a session at the example office. The pages of station-office and its screen are made
from the first texts of these programs, the README beside them, and MANUAL.md. A passage that a page takes from the middle of a section stands between two marks: `<!-- NAME -->` and `<!-- end -->`."""
import ast
import itertools
import re
import textwrap

from making.markdown import codes, marked, paragraphs, section, table, text as read
from making.sources import DOCS, Fault

OFFICE = "office"
EXAMPLES = "examples/office"
FORMATS = "docs/FORMATS.md"
MANUAL = "docs/MANUAL.md"
# The source files with the table of subcommands and the table of requests.
SUBCOMMANDS = "crates/docker_cmd/src/tasks.rt"
REQUESTS = "crates/docker_desk/src/requests.rt"
# The source file with the words that request a docker.
QUERIES = "crates/docker_desk/src/query.rt"
# The day on which the text in this script was last changed.
DATE = "2026-11-27"

# The names that pages use for each other's sections, and the names of these sections in the manual pages.
CALLED = {
    "*Commands* in PERFORMANCE has": "PERFORMANCE.md, among the program's sources, has",
    "*Faults* in FORMATS": "DIAGNOSTICS in the page of `docker`",
    "*What can't be undone*": "CAVEATS",
    "(*Faults*)": "(DIAGNOSTICS in the page of `docker`)",
    "the section *The package* describes": "SERVICES describes",
    "*The requests of a desk* in FORMATS": "REQUESTS",
}
# What requests write that the page of desk describes, each with its section in FORMATS.md.
PRINTED = (
    (r"What \fBtrain\fR writes", "The schedule of a UID on a day"),
    (r"What \fBdetail\fR and \fBpermanent\-detail\fR write", "What `detail` and `permanent-detail` write"),
)
ESCAPES = str.maketrans({"\\": r"\e", "-": r"\-", "~": r"\(ti", "^": r"\(ha"})


# Reads the pages.


def part(heading):
    """The paragraphs of a part of MANUAL.md that is about the desk."""
    return paragraphs(section(MANUAL, heading, "###"))


def docker_words():
    """The words that request a docker, one for each kind of docker."""
    return re.findall(r'DockerKind::\w+ => "([a-z-]+)"', read(QUERIES))


def rows_of(source):
    """The rows of a table in the code, such as `Row::of("day", &["FILE", "TIPLOC", "DATE"], ..)`: the words of each row, and its last column. The row of a
    desk's dockers stands for one row for each kind of docker."""
    text = re.sub(r"=> (\w*Row::of)\(kind\.word\(\), (.*)\)", lambda it: "\n".join(f'=> {it[1]}("{word}", {it[2]})' for word in docker_words()), read(source))
    rows = re.findall(r'=> \w*Row::of\(\s*"([a-z-]+)",\s*&\[([^]]*)\],(?:\s*\w+,)*\s*(\w+),?\s*\)', text)
    return [(" ".join([name, *re.findall(r'"([A-Z]+)"', ids)]), last) for name, ids, last in rows]


def as_in_code(page, listed, source, wanted):
    """Stops unless a page lists the content of the table in the code, in the same order."""
    if listed != wanted:
        raise Fault(f"{page} has {' | '.join(listed)}, and {source} has {' | '.join(wanted)}")


# Writes roff.


def escaped(text):
    return text.translate(ESCAPES)


def bold(code):
    """Text from between backquotes, in bold. The program's name becomes a string, which ./install sets to the name under which it installs the program."""
    return r"\fB" + re.sub(r"^docker(?= |$)", lambda _: r"\*[program]", code.strip()) + r"\fR"


def inline(text):
    """A page's text as roff: code and text between pairs of asterisks in bold, text between single asterisks in italics."""
    for place, name in CALLED.items():
        text = text.replace(place, name)
    text = re.sub(r"\*\*(.*?)\*\*", lambda found: "`" + found[1].replace("`", "") + "`", escaped(text.replace("\\|", "|")))
    parts = re.split(r"`([^`]+)`", text)
    parts[0::2] = [re.sub(r"\*([^*]+)\*", r"\\fI\1\\fR", plain) for plain in parts[0::2]]
    return "".join(bold(it) if number % 2 else it for number, it in enumerate(parts))


def guarded(line):
    """A line that roff doesn't read as a request."""
    return rf"\&{line}" if line[:1] in (".", "'") else line


def lines_of(text):
    """A text as lines of roff. Each sentence begins a new line, and no line is long."""
    parts = re.split(r"(?:(?<=[.:])|(?<=[.:]\\fR))\s+(?=\\f[BI]|[A-Z(])", " ".join(inline(text).split()))
    wrapped = (line for it in parts for line in textwrap.wrap(it, 79, break_long_words=False, break_on_hyphens=False))
    return "".join(f"{guarded(line)}\n" for line in wrapped)


def prose(*texts):
    return "".join(f".PP\n{lines_of(text)}" for text in texts)


def item(tag, text):
    return f".TP\n{tag}\n{lines_of(text)}"


def sentence(cell):
    """A cell as a sentence."""
    return cell[0].upper() + cell[1:] + ("" if cell.endswith(".") else ".")


def words(usage):
    """The words of a command: placeholders in italics, other words in bold."""
    return " ".join(re.sub(r"[A-Z]+|[^A-Z]+", lambda found: rf"\f{'I' if found[0].isupper() else 'B'}{found[0]}\fR", escaped(word)) for word in usage.split())


def verbatim(lines, typed=()):
    """Commands and their output, verbatim, with typed text in bold. Each line has to fit into a window of 80 columns after the page's indent of nine
    columns."""
    text = ".RS 2\n.nf\n"
    for number, line in enumerate(lines):
        if len(line.rstrip()) > 71:
            raise Fault(f"a line has more than 71 columns: {line}")
        plain = escaped(line.rstrip()).replace("'", r"\(aq").replace("`", r"\(ga")
        plain = re.sub(r"^([$] |.*\| )?docker(?= |\\-desk )", lambda found: (found[1] or "") + r"\*[program]", plain)
        text += (rf"\fB{plain}\fR" if number in typed else guarded(plain)) + "\n"
    return text + ".fi\n.RE\n"


def listed(rows):
    """A compact list of columns, each with its content."""
    return ".PD 0\n" + "".join(f".TP 8\n{escaped(place)}\n{lines_of(what)}" for place, what in rows) + ".PD\n"


def page(name, purpose, sources, *sections):
    text = f'.\\" Made by docs/pages from {sources}.\n.ds program docker\n.TH {name.upper()} 1 {DATE} "" "Station dockers"\n.nh\n.ad l\n'
    text += f".SH NAME\n{escaped(name)} \\- {purpose}\n"
    return text + "".join(f".SH {title}\n{body.removeprefix('.PP' + chr(10))}" for title, body in sections if body)


# docker.1


def columns_of(cell):
    """The columns in a cell: `what 1-7, what 9 (when), ..`, or a column with its place first: `1-80 what`."""
    if found := re.fullmatch(r"(\d+-\d+) (.*)", cell):
        yield found[1], found[2]
        return
    column = re.compile(r"(.+?) (\d+(?:-\d+)?)((?: \([^)]*\)|, with [^,]*)?)(?:, |$)")
    if column.sub("", cell):
        raise Fault(f"{FORMATS} has no columns for: {column.sub('', cell)}")
    yield from ((place, what + more) for what, place, more in column.findall(cell))


def examples():
    """The first docker of README.md, and the part of the example office by hand: each comment of its transcript, with the commands below it."""
    shown = marked("README.md", "example")
    text = verbatim(re.sub(r"^\$ \./try (.*)examples/office/", r"$ docker \1", line) for line in codes(shown)[0])
    text += prose(*paragraphs(shown))
    by_hand = read(f"{EXAMPLES}/transcript").split("\n\n")[0]
    for comment, commands in re.findall(r"^# (.*)\n((?:[^#\n].*\n?)+)", by_hand, re.M):
        text += prose(comment) + verbatim(commands.splitlines())
    return text


def printed(title, heading):
    """What FORMATS.md says of a printed text. The columns of its lines, or of each kind of line, come after the first paragraph."""
    about, columns = section(FORMATS, heading), ""
    if "\n| Line |" in about:
        columns = "".join(f".PP\n{line[0].upper()}{line[1:]}:\n.RS 2\n{listed(columns_of(cell))}.RE\n" for line, cell in table(about, "Line", "Columns"))
    elif "\n| Columns |" in about:
        columns = f".RS 2\n{listed(table(about, 'Columns', ''))}.RE\n"
    first, *others = paragraphs(about)
    return f".SS {title}\n{lines_of(first)}{columns}{prose(*others)}"


def output():
    """The printed lines, column by column, and the gaps in a list of files."""
    gaps = section(MANUAL, "Gaps between files")
    files = printed("The list of files", "What `files` writes") + prose(*paragraphs(gaps)) + verbatim(codes(gaps)[0])
    return printed("A docker", "A docker") + files + printed(r"The line of \fBcheck\fR", "What `check` writes")


def cause(fault):
    """The meaning of a fault, and what to do, from the table that docs/making/causes.py makes."""
    known = {name: (means, what) for name, means, what in (line.split("\t") for line in read(f"{OFFICE}/causes").splitlines())}
    if fault not in known:
        raise Fault(f"{OFFICE}/causes has nothing on: {fault}")
    return known[fault]


def causes_of(kind, names):
    """The causes of a refused file or state. Adjacent causes with the same advice are put together."""
    known = [(name, *cause(f"{kind} refused: {name.split()[0]}")) for name in names]
    text = ""
    for what, group in itertools.groupby(known, key=lambda it: it[2]):
        of = [(f"`{name}`", means) for name, means, _ in group]
        about = f"{sentence(of[0][1])} {what}" if len(of) == 1 else f"{what} {sentence('; '.join(f'{name}: {means}' for name, means in of))}"
        text += item(", ".join(inline(name) for name, _ in of), about)
    return text


def faults():
    """Each fault with its meaning and what to do. Then each cause of a refused file or state."""
    formats, states = section(FORMATS, "Faults"), section(FORMATS, "The text of a state")
    statuses = dict(table(section(MANUAL, "The commands"), "Status", "Means"))
    text = lines_of(f"{paragraphs(formats)[0]} {marked(MANUAL, 'each line')}")
    for fault, line, status in table(formats, "Fault", "Line", "Status"):
        name = line.strip("`").removeprefix("docker: ")
        if name.startswith("usage: "):
            name, line = "usage", "`docker: usage: ...`"
        what = "Its CAUSE is explained below." if "CAUSE" in name else cause(name)[1]
        text += item(inline(line), f"{sentence(fault if status == '1' else statuses[status])} {what} Status {status}.")
    text += ".SS Causes of a refused file\n" + lines_of(marked(FORMATS, "refused file"))
    text += causes_of("file", [name.strip("`") for name, in table(formats, "CAUSE")])
    text += ".SS Causes of a refused state\n" + lines_of(marked(FORMATS, "refused state"))
    return text + causes_of("state", [name.strip("`") for name, in table(states, "Cause")])


def exit_statuses(text):
    """Each exit status of a program, from the table in this part of MANUAL.md. The launcher's status is left out."""
    rows = table(text, "Status", "Means", "On standard error")
    return "".join(item(rf"\fB{status}\fR", f"{sentence(means)} On standard error: {line}.") for status, means, line in rows if status != "70")


def docker():
    commands, undone = section(MANUAL, "The commands"), section(MANUAL, "What can't be undone")
    about = paragraphs(read("README.md"))[0]
    purpose = paragraphs(read(MANUAL).split("\n## ")[0].partition("\n")[2])[1]
    *caveats, guard = paragraphs(undone)
    usages = [(usage.strip("`"), what) for usage, what in table(commands, "Words", "What it does") if usage.startswith("`")]
    rows = [usage for usage, _ in rows_of(SUBCOMMANDS)]
    as_in_code(MANUAL, [usage for usage, _ in usages], SUBCOMMANDS, rows)
    line = next(line for _, line, _ in table(section(FORMATS, "Faults"), "Fault", "Line", "Status") if "usage: " in line)
    as_in_code(FORMATS, re.match(r"`docker: usage: (.*?)`(?= \(|$)", line)[1].split(r" \| "), SUBCOMMANDS, rows)
    return page(
        *("docker", "station dockers from Network Rail CIF extracts", "MANUAL.md, FORMATS.md, README.md, PERFORMANCE.md, examples/office and office/causes"),
        ("SYNOPSIS", "\n.br\n".join(rf"\fB\*[program]\fR {words(usage)}" for usage, _ in usages) + "\n"),
        ("DESCRIPTION", prose(about, purpose, paragraphs(commands)[0])),
        ("COMMANDS", "".join(item(words(usage), sentence(what)) for usage, what in usages) + item("no words", paragraphs(section(FORMATS, "The job line"))[0])),
        ("EXAMPLES", examples()),
        ("OUTPUT", output()),
        ("FILES", item(r"\fISTATE\fR", " ".join(paragraphs(section(MANUAL, "How STATE is written")))) + item(r"\fISTATE\fB.new\fR", marked(FORMATS, "draft"))),
        ("EXIT STATUS", exit_statuses(commands)),
        ("DIAGNOSTICS", faults()),
        ("LIMITS", prose(*paragraphs(section(MANUAL, "What it doesn't read, and what it costs")))),
        ("CAVEATS", prose(*caveats) + verbatim(codes(undone)[0]) + prose(guard)),
        ("SEE ALSO", ".BR \\*[program]\\-desk (1),\n.BR station\\-office (1),\n.BR flock (1)\n" + prose(marked(MANUAL, "formats"))),
    )


# docker-desk.1


def requests():
    """Each request with its meaning."""
    told, rows = section(FORMATS, "The requests of a desk"), rows_of(REQUESTS)
    listed = [(usage.strip("`"), what, of) for usage, what, of in table(told, "Request", "What it does", "Which desk")]
    as_in_code(FORMATS, [usage for usage, _, _ in listed], REQUESTS, [usage for usage, _ in rows])
    as_in_code(FORMATS, [usage for usage, _, of in listed if of != "any"], REQUESTS, [usage for usage, writes in rows if writes == "true"])
    usages = [" | ".join(usage for usage, writes in rows if writes == needed) for needed in ("false", "true")]
    as_in_code(FORMATS, codes(section(FORMATS, "The answers of a desk"))[0], REQUESTS, [f"desk: usage: [--write] STATE, and then a line for each request: {usages[0]} | with --write {usages[1]}"])
    lines = [f"with --write {usage}" if writes == "true" else usage for usage, writes in rows]
    as_in_code(FORMATS, codes(section(FORMATS, "The words of a desk"))[0][1:], REQUESTS, lines)
    text = "".join(item(words(usage), sentence(what) + ("" if of == "any" else " With `--write` only.")) for usage, what, of in listed)
    return text + prose(*paragraphs(told), part("Its files")[0])


def session():
    """A session at the example office: each request is followed by its answer. The answer's header has its number of lines."""
    lines = read(f"{EXAMPLES}/desk-session").splitlines()
    shown, typed, at = lines[:1], [0], 1
    while at < len(lines):
        typed.append(at)
        end = at + 2 + int(lines[at + 1].split()[1])
        shown += (line[:71] for line in lines[at:end])
        at = end
    before = "At a terminal, after the examples in the page of `docker`. What is typed is in bold. Of the lines of `train` only the first 71 columns are shown:"
    return prose(before) + verbatim(shown, typed)


def desk():
    *answers, last = paragraphs(section(FORMATS, "The answers of a desk"))
    return page(
        *("docker-desk", "station dockers of one state, a request a line", "MANUAL.md, FORMATS.md, examples/office and office/causes"),
        ("SYNOPSIS", "\n.br\n".join(rf"\fB\*[program]\-desk\fR {given}" for given in (r"\fB[\-\-write]\fR \fISTATE\fR", r"\fB\-\-help\fR", r"\fB\-\-version\fR")) + "\n"),
        ("DESCRIPTION", prose(*part("What it is"))),
        ("REQUESTS", requests()),
        ("ANSWERS", prose(*answers, f"{last} the usage line.", part("How it ends")[0])),
        ("OUTPUT", lines_of("OUTPUT in the page of `docker` has what `print` and `files` write.") + "".join(printed(*it) for it in PRINTED)),
        ("EXAMPLES", session() + prose(*part("Many dockers from one process")) + verbatim(codes(section(MANUAL, "Many dockers from one process", "###"))[0])),
        ("SAVING", prose(*part("Saving"))),
        ("FILES", item(r"\fISTATE\fR", part("Its files")[1]) + item(r"\fISTATE\fB.new\fR", marked(FORMATS, "draft"))),
        ("EXIT STATUS", exit_statuses(section(MANUAL, "How it ends", "###")) + prose(part("How it ends")[-1])),
        ("SEE ALSO", ".BR \\*[program] (1),\n.BR station\\-office (1)\n" + prose(marked(MANUAL, "formats"))),
    )


# station-office.1


def text_of(script):
    """A program's first text: its first line, each command with its meaning, and the paragraphs under each heading. Headings are lines such as `Files:`."""
    first, *rest = ast.get_docstring(ast.parse(read(script))).split("\n\n")
    commands = [re.split(r" {2,}", line.strip(), maxsplit=1) for part in rest if part.startswith("  ") for line in part.splitlines()]
    parts, heading = {"": []}, ""
    for it in rest:
        if re.fullmatch(r"[A-Z][a-z ]+:", it):
            heading = it
            parts[heading] = []
        elif not it.startswith("  "):
            parts[heading].append(it)
    return first, commands, parts


def options(part):
    """A paragraph of options: each line begins with an option, and its meaning follows."""
    found = (re.match(r"(--\w+)(?: ([A-Z:-]+))? (.*)", it, re.S) for it in re.split(r"\n(?=--)", part))
    return "".join(item(words(" ".join(filter(None, it.groups()[:2]))), sentence(it[3])) for it in found)


def settings_of(text, *columns):
    """A table with names in its first column, as a list of names with their meanings."""
    return "".join(item(inline(name), sentence(what)) for name, what in table(text, *columns))


def station_office():
    readme = f"{OFFICE}/README.md"
    first, commands, told = text_of(f"{OFFICE}/station-office")
    day, fetching, healing, package = (section(readme, title) for title in ("A folder for an office", "Fetching", "Healing", "The package"))
    sources, services = paragraphs(fetching), paragraphs(package)
    bare = [(usage.removeprefix("station-office ").removeprefix("[--force] "), what) for usage, what in commands]
    return page(
        *("station-office", "an office's day of station dockers", "the first text of office/station-office, the README beside it, and MANUAL.md"),
        ("SYNOPSIS", "\n.br\n".join(words(usage) for usage, _ in commands) + "\n"),
        ("DESCRIPTION", prose(re.sub(":$", ".", first), *told[""], marked(readme, "needs"), *paragraphs(marked(readme, "day")))),
        ("COMMANDS", "".join(item(words(usage), sentence(what)) for usage, what in bare)),
        ("OPTIONS", "".join(map(options, told["Options:"]))),
        ("EXAMPLES", prose(paragraphs(day)[0]) + verbatim(codes(day)[0])),
        ("FETCHING", prose(sources[0]) + verbatim(codes(fetching)[0]) + settings_of(fetching, "Setting", "Meaning") + prose(*sources[1:])),
        ("HEALING", prose(paragraphs(healing)[0]) + "".join(item(f"{number}.", what) for number, what in re.findall(r"^(\d+)\. (.*)$", healing, re.M))),
        ("FILES", prose(*told["Files:"])),
        ("ENVIRONMENT", prose(*told["Environment:"])),
        ("EXIT STATUS", prose(*told["Exit status:"])),
        ("DIAGNOSTICS", prose(*paragraphs(section(MANUAL, "What `station-office` prints")))),
        ("LIMITS", prose(*paragraphs(section(readme, "What it costs")))),
        ("SERVICES", prose(services[0]) + verbatim(codes(package)[0]) + settings_of(package, "Unit", "What it does") + prose(*services[1:])),
        ("SEE ALSO", ".BR \\*[program] (1),\n.BR \\*[program]\\-desk (1),\n.BR station\\-office\\-screen (1)\n"),
    )


def screen():
    first, usage, *rest = ast.get_docstring(ast.parse(read(f"{OFFICE}/screen/serve"))).split("\n\n")
    usages = (words(line.strip().replace("serve", "station-office-screen", 1)) for line in usage.splitlines())
    return page(
        *("station-office-screen", "station dockers in a browser", "the first text of office/screen/serve, and MANUAL.md"),
        ("SYNOPSIS", "\n.br\n".join(usages) + "\n"),
        ("DESCRIPTION", prose(first, *rest)),
        ("FILES", item(r"\fB/etc/default/station\-office\-screen\fR", paragraphs(section(MANUAL, "The screen"))[-1])),
        ("SEE ALSO", ".BR \\*[program] (1),\n.BR station\\-office (1)\n"),
    )


def made():
    of = {"docker": docker, "docker-desk": desk, "station-office": station_office, "station-office-screen": screen}
    return {DOCS / f"{name}.1": text() for name, text in of.items()}
