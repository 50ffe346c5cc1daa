"""What is wrong with a field that is ill-formed, as a look at its bytes tells. Each answers (cause, how to mend it)."""
import re

from desk.visible import visible

WHOLE = "write a whole number without decimals or separators: 50.00 EUR per MWh are 5000 cent"

# A number is 0, or an optional minus and 1 to 9 digits without a leading zero; a bound of the carry block has up to 11.
WRITTEN = {"number": "(?:0|-?[1-9][0-9]{0,8})", "bound": "(?:0|-?[1-9][0-9]{0,10})"}


def faulty(form, data):
    """the cause in a field of a form, or None where the form is good"""
    return FORMS[form](data)


def number(data):
    """a number"""
    text = data.decode("utf-8", "surrogateescape")
    if re.fullmatch(WRITTEN["number"], text):
        return None
    for form, cause, mend in NUMBERS:
        if re.fullmatch(form, text):
            return cause, mend
    return "this is no whole number", "write digits alone, with a minus before them where it is negative"


def bound(data):
    """a bound of the carry block"""
    text = data.decode("utf-8", "surrogateescape")
    if re.fullmatch(WRITTEN["bound"], text):
        return None
    if re.fullmatch("-?[0-9]{12,}", text):
        return "more than 11 digits", "copy the O line anew from the sheet that it comes from"
    return number(data)


# The first form that fits gives the cause.
NUMBERS = (
    (r"", "the field is empty", "write a number; only the lot may be left out, as -"),
    (r"\s+.*|.*\s+", "a space before or after the number", "take the space out"),
    (r"[\"'].*[\"']", "quotation marks around the number", "take the quotation marks out"),
    (r"[-+]?[0-9]+,[0-9]+", "a decimal comma, or a comma for thousands", WHOLE),
    (r"[-+]?[0-9]+\.[0-9]+", "a decimal point, or a point for thousands", WHOLE),
    (r"[-+]?[0-9]{1,3}([., '\u00a0\u202f_’][0-9]{3})+([.,][0-9]+)?", "separators for thousands", WHOLE),
    (r"\+[0-9]+", "a leading plus", "take the plus out"),
    (r"-0+", "minus zero", "write 0"),
    (r"-?0+[0-9]+", "a leading zero", "take the leading zeros out"),
    (r"[\u2212\u2013\u2014][0-9]+", "a minus or dash that is not the plain sign", "write the plain minus -"),
    (r"[0-9]+-", "a minus after the number", "write the minus before the number"),
    (r"-?[0-9]{10,}", "more than 9 digits", "look whether the number is in kW, seconds or cent per MWh"),
    (r"-", "a hyphen for a number", "write the number; only the lot may be left out, as -"),
    (r"[-+]?[0-9.,]+[eE][-+]?[0-9]+", "a power of ten", "write all digits of the number"),
    (r"[-+]?[0-9.,]+\s*[A-Za-z%/€]+", "a unit behind the number", "take the unit out (kW, cent per MWh)"),
)


def lot(data):
    """a lot is a number, or - for the usual one"""
    return None if data == b"-" else number(data)


def direction(data):
    """a direction is P or N"""
    if data in (b"P", b"N"):
        return None
    if data in (b"p", b"n"):
        return "the direction in lower case", f"write {data.decode().upper()}"
    if data.strip().upper() in (b"P", b"N"):
        return "a space beside the direction", "take the space out"
    cause = f"{visible(data)} is no direction" if data else "the direction is missing"
    return cause, "write P for positive (extra infeed) or N for negative (extra offtake)"


def date(data):
    """a date is four, two and two digits with hyphens between"""
    text = data.decode("utf-8", "surrogateescape")
    if re.fullmatch(r"[0-9]{4}-[0-9]{2}-[0-9]{2}", text, re.ASCII):
        return None
    german = re.fullmatch(r"([0-9]{1,2})\.([0-9]{1,2})\.([0-9]{4}|[0-9]{2})", text)
    if german:
        day, month, year = german.groups()
        return "a date in German form", f"write {'20' * (len(year) == 2) + year}-{month.zfill(2)}-{day.zfill(2)}"
    parts = re.fullmatch(r"([0-9]{4})[-/.]?([0-9]{1,2})[-/.]?([0-9]{1,2})", text)
    if parts:
        year, month, day = parts.groups()
        return "a date in another form than YYYY-MM-DD", f"write {year}-{month.zfill(2)}-{day.zfill(2)}"
    if re.match(r"[0-9]{4}-[0-9]{2}-[0-9]{2}", text):
        return "something behind the date", f"write {text[:10]} alone"
    return "this is no date of the form YYYY-MM-DD", "write year, month and day with hyphens between, as 2017-02-20"


def _any(_data):
    """an identifier has no form: what is wrong with one is another refusal"""


FORMS = {"number": number, "bound": bound, "lot": lot, "date": date, "direction": direction, "identifier": _any}
