"""What a cell that is no good number looks like, and the number that was meant."""

import re
import unicodedata
from decimal import ROUND_HALF_UP, Decimal
from typing import NamedTuple

from ..cells import Cell, Fixed, Whole, WholeOrWord
from ..tables import CellRefused, value_of

LOOKALIKES = str.maketrans("OoQlI|SBZ", "000111582")
NOTHING = {"nan", "null", "none", "n/a", "na", "-", "--", "?", "x", "tbd", "nil", "leer"}
TOTALS = {"summe", "gesamt", "total", "sum", "totals", "insgesamt", "mean", "mittel", "average"}
TO_MINUTES = {"s": 1 / 60, "sec": 1 / 60, "sek": 1 / 60, "h": 60, "std": 60, "hours": 60}
UNITS = (
    r"min|mins|minutes|minuten|km|m|meter|eur|euro|€|\$|%|pax|customers|kunden|pers|personen"
    r"|s|sec|sek|h|std|hours|hour|x|times|mal|p\.?a\.?"
)


MONTHS = {name: at for at, name in enumerate("jan feb mar apr may jun".split(), 1)}
MONTHS |= {name: at for at, name in enumerate("jul aug sep oct nov dec".split(), 7)}
MONTHS |= {"mär": 3, "mai": 5, "okt": 10, "dez": 12}


class Meant(NamedTuple):
    """What a cell looks like, in words, and what was meant, if that can be told."""

    says: str
    value: str | None = None


def meant(cell: Cell, text: str) -> Meant | None:
    """What a text in the place of a number looks like; none where nothing is recognised."""
    if isinstance(cell, WholeOrWord):
        cell = cell.whole
    if not isinstance(cell, Whole | Fixed):
        return None
    is_whole = isinstance(cell, Whole)
    if cell.unit == "customers" and re.fullmatch(r"[1-9]\d{0,2}(,\d{3})+", text):
        return Meant("it has separators of thousands", text.replace(",", ""))
    for look in (_signs, _clock, _date, _grouped, _forms, _unit, _letters):
        found = look(text, is_whole)
        if found is not None:
            values = [found.value, (found.value or "").removeprefix("-")]
            return Meant(found.says, next((it for it in values if it and fits(cell, it)), None))
    return None


def fits(cell: Cell, text: str) -> bool:
    """Whether a text is a good value of a cell."""
    try:
        value_of(cell, text)
    except CellRefused:
        return False
    return True


def _signs(text: str, is_whole: bool) -> Meant | None:
    """Blanks that are none, quotes of other kinds, other minus signs, digits of other scripts."""
    if not text.strip():
        return Meant("nothing stands there")
    kinds = []
    if re.search(r"[\u00a0\u2007\u2009\u202f\u200b\ufeff]", text):
        kinds.append("a no-break space")
    if re.search(r"[\"'\u2018\u2019\u201c\u201d\u201e\u00ab\u00bb`]", text[:1] + text[-1:]):
        kinds.append("quotes")
    if re.search(r"[\u2212\u2013\u2014]", text):
        kinds.append("a dash in the place of a minus sign")
    if any(sign.isdigit() and not sign.isascii() for sign in text):
        kinds.append("digits of another script")
    if not kinds:
        return None
    plain = re.sub(r"[\u2212\u2013\u2014]", "-", unicodedata.normalize("NFKC", text))
    plain = "".join(str(unicodedata.digit(sign, sign)) for sign in plain)
    plain = re.sub(r"[\s\"'\u2018\u2019\u201c\u201d\u201e\u00ab\u00bb\u200b\ufeff`]", "", plain)
    again = None if plain == text else _then(plain, is_whole)
    return Meant(f"it has {' and '.join(kinds)}", again)


def _then(text: str, is_whole: bool) -> str | None:
    """The number of what is left once one thing is put right."""
    for look in (_clock, _grouped, _forms, _unit):
        found = look(text, is_whole)
        if found is not None:
            return found.value
    return text


def _clock(text: str, _: bool) -> Meant | None:
    """A time of the day."""
    parts = re.fullmatch(r"(\d{1,3})[:h](\d{2})(?::\d{2})?(?: *(uhr|am|pm))?", text.lower())
    if not parts or int(parts[2]) > 59:
        return None
    hour = (
        int(parts[1]) % 12 + 12 * (parts[3] == "pm") if parts[3] in ("am", "pm") else int(parts[1])
    )
    return Meant(
        "it is a clock time, and minutes are counted from midnight", str(60 * hour + int(parts[2]))
    )


def _date(text: str, is_whole: bool) -> Meant | None:
    """A date, into which spreadsheets turn numbers: 1.2 becomes the first of February."""
    dotted = re.fullmatch(r"(\d{1,2})[./](\d{1,2})[./](?:\d{2,4})?", text)
    named = re.fullmatch(r"(\d{1,2})[-. ]+([a-zä]{3})[a-z]*\.?(?:[-. ]\d{2,4})?", text.lower())
    iso = re.fullmatch(r"\d{4}-(\d{1,2})-(\d{1,2})(?:[ T].*)?", text)
    if dotted:
        parts = int(dotted[1]), int(dotted[2])
    elif iso:
        parts = int(iso[2]), int(iso[1])
    elif named and named[2] in MONTHS:
        parts = int(named[1]), MONTHS[named[2]]
    else:
        return None
    number = None if is_whole else f"{parts[0]}.{parts[1]}"
    return Meant("it is a date, into which a spreadsheet turns numbers such as 1.2", number)


def _grouped(text: str, is_whole: bool) -> Meant | None:
    """Thousands with separators, and decimal commas."""
    for dot, comma in ((r"\.", ","), (",", r"\.")):
        parts = re.fullmatch(rf"(-?\d{{1,3}}(?:{dot}\d{{3}})+){comma}(\d+)", text)
        if parts:
            number = f"{re.sub('[.,]', '', parts[1])}.{parts[2]}"
            return Meant("it has separators of thousands", number)
    if re.fullmatch(r"-?\d{1,3}(?:[ '\u2019.,_]\d{3}){2,}", text) or re.fullmatch(
        r"-?\d{1,3}(?:[ '\u2019_]\d{3})+", text
    ):
        return Meant("it has separators of thousands", re.sub(r"[^\d-]", "", text))
    if re.fullmatch(r"-?[1-9]\d{0,2}[,.]\d{3}", text) and (is_whole or "," in text):
        number = re.sub("[.,]", "", text) if is_whole else text.replace(",", ".")
        says = "a decimal comma" if "," in text and not is_whole else "a separator of thousands"
        return Meant(f"it has {says}", number)
    if re.fullmatch(r"-?\d+,\d+", text):
        number = text.replace(",", ".")
        return Meant("it has a decimal comma", _rounded(number) if is_whole else number)
    return None


def _rounded(number: str) -> str:
    if len(number) > 20:
        return number
    return str(Decimal(number).quantize(Decimal(1), rounding=ROUND_HALF_UP))


def _forms(text: str, is_whole: bool) -> Meant | None:
    """Numbers in forms that are not read."""
    if re.fullmatch(r"[+-]?\d+(?:[.,]\d+)?[eE][+-]?\d{1,2}", text):
        number = f"{Decimal(text.replace(',', '.')):f}"
        plain = number.rstrip("0").rstrip(".") if "." in number else number
        return Meant("it is written with a power of ten", plain)
    if re.fullmatch(r"\+\d+(?:\.\d+)?", text):
        return Meant("a plus sign stands before it", text[1:])
    if re.fullmatch(r"-?\.\d+", text):
        return Meant("no digit stands before its point", text.replace(".", "0."))
    if re.fullmatch(r"-?\d+\.", text):
        return Meant("no digit stands after its point", text[:-1])
    if is_whole and re.fullmatch(r"-?\d+\.\d+", text):
        return Meant("it has a fraction, and a whole number is wanted", _rounded(text))
    return None


def _unit(text: str, is_whole: bool) -> Meant | None:
    """A number with its unit."""
    parts = re.fullmatch(rf"([€$]?) *([+-]?[\d.,' ]*\d) *({UNITS}|)\.?", text.lower())
    if not parts or not (parts[1] or parts[3]):
        return None
    number = _then(parts[2], is_whole) or parts[2]
    factor = TO_MINUTES.get(parts[3], 1)
    if factor != 1 and fits(Fixed(0, 10**9), number):
        number = _rounded(str(float(number) * factor))
    return Meant(f"it has the unit {parts[3] or parts[1]} in the cell", number)


def _letters(text: str, is_whole: bool) -> Meant | None:
    """Words in the place of numbers, and letters that look like digits."""
    low = text.lower().strip(":. ")
    if low in TOTALS:
        return Meant("it looks like a row of totals")
    if low in NOTHING:
        return Meant("it stands for no value")
    has_both = re.search(r"\d", text) and re.search(r"[OoQlI|SBZ]", text)
    if has_both and re.fullmatch(r"[\dOoQlI|SBZ.]+", text):
        return Meant("it has letters that look like digits", text.translate(LOOKALIKES))
    return None
