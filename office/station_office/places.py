"""The office's list of places."""
import dockers


def lines_of_list(office):
    """The codes in the office's list of places. Blank lines and remarks are skipped."""
    lines = (office.folder / "places").read_text(encoding="utf-8", errors="replace").splitlines()
    return [line.strip() for line in lines if line.strip() and not line.strip().startswith("#")]


def listed_places(office):
    """The codes in the office's list that can be places, each once. There are none if there is no list."""
    try:
        return [code for code in dict.fromkeys(lines_of_list(office)) if dockers.is_tiploc(code)]
    except FileNotFoundError:
        return []
