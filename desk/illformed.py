"""Why a line is ill-formed (refusal 14), as a look at its bytes tells: the first cause that fits is given."""
import collections
import re

from desk.forms import faulty
from desk.layout import KINDS, READS, pattern
from desk.refusals import remedy
from desk.visible import grouped, visible

# The place of the field at fault (0 is the letter that begins the line), or None; the cause; how to mend it.
Cause = collections.namedtuple("Cause", "field words mend")

LONGEST = 80
FOR_TABS = ((b";", "semicolons", "tr ';' '\\t' <FILE >MENDED"), (b"|", "vertical bars", "tr '|' '\\t' <FILE >MENDED"),
            (b",", "commas", "tr ',' '\\t' <FILE >MENDED"), (b" ", "spaces", "tr -s ' ' '\\t' <FILE >MENDED"))

# Lines of other texts, by the letters that begin them: what text, and what to do where one is given for another.
ELSEWHERE = {
    **dict.fromkeys(KINDS, ("an input", "give the recording as the archive has it; contracts come in by mend --into")),
    **dict.fromkeys((b"V", b"Q", b"K", b"T", b"R"), ("a sheet", "give the input that the sheet was made from")),
    b"G": ("a recording", "mend it first: fireboxer mend --into CONTRACTS RECORDING prints an input"),
    b"U": ("the operator's shares", "put the shares behind E, where fireboxer shares checks them"),
    b"X": ("a mended recording", "mend it with --into CONTRACTS, which prints an input without the marks"),
}


def cause_of_ill_form(line, program):
    """the cause in a line that a program found ill-formed"""
    text = READS[program]
    for look in (encoding, line_ends, _blank):
        cause = look(line)
        if cause:
            return cause
    for look in (_signs_for_tabs, _length, _letter, _count, _fields):
        cause = look(line, text)
        if cause:
            return cause
    return Cause(None, "none that a look at the bytes shows", remedy(14))


def encoding(line):
    """an input that is not plain text of one byte a sign"""
    if line.text.startswith((b"\xff\xfe", b"\xfe\xff")) or line.text.count(b"\0") * 3 > len(line.text):
        return Cause(None, "the file is in UTF-16 (a form that Windows programs call Unicode), two bytes for each sign",
                     "save it as plain text, ASCII or UTF-8 without byte order mark, "
                     "or: iconv -f UTF-16 -t ASCII FILE >MENDED")
    if line.text.startswith(b"\xef\xbb\xbf"):
        return Cause(0, "a byte order mark stands before the first sign",
                     "save the file as ASCII, or as UTF-8 without byte order mark, or: tail -c +4 FILE >MENDED")
    if b"\0" in line.text:
        return Cause(None, "a zero byte in the line: the file may be damaged", "write the line anew")
    return None


def line_ends(line):
    """line ends other than LF alone"""
    if line.text.endswith(b"\r") and line.complete and line.text.count(b"\r") == 1:
        fields = line.text.count(b"\t")
        return Cause(fields, "Windows line ends: the lines end in CR and LF, and only LF may stand there",
                     "save the file with Unix line ends (LF), or: tr -d '\\r' <FILE >MENDED")
    if b"\r" in line.text:
        return Cause(None, "line ends of CR alone, or a CR within the line: lines end in LF",
                     "tr '\\r' '\\n' <FILE >MENDED")
    return None


def _blank(line):
    if line.text.strip():
        return None
    return Cause(None, "a line of blanks alone" if line.text else "a blank line",
                 "take the line out; an input has no blank lines, also not at its end")


def _signs_for_tabs(line, text):
    for sign, name, command in FOR_TABS:
        parts = re.split(b"[\t" + re.escape(sign) + b"]+", line.text)
        wanted = len(text.kinds[parts[0]].fields) if parts[0] in text.kinds else 0
        tabs = line.text.count(b"\t")
        if sign in line.text and tabs < wanted and (tabs == 0 or len(parts) == wanted + 1):
            return Cause(None, f"{name} for tabs: one tab stands between two fields",
                         f"put one tab for each, or: {command}")
    return None


def _length(line, _text):
    if line.length <= LONGEST:
        return None
    return Cause(None, f"the line has {grouped(line.length)} bytes, and at most {LONGEST} are read",
                 "shorten the line; see that no line end is missing in it")


def _letter(line, text):
    first = line.text.split(b"\t")[0]
    if first in text.kinds:
        return None
    if first.strip() in text.kinds:
        return Cause(0, "a space beside the letter that begins the line", "take the space out")
    if first.strip(b"\"'") in text.kinds:
        return Cause(0, "quotation marks around the fields", "take the quotation marks out")
    if first.upper() in text.kinds:
        return Cause(0, "the letter in lower case", f"write {first.decode().upper()}")
    if first.startswith((b"#", b"//")):
        return Cause(0, f"a comment: {text.name} has none", "take the line out")
    if first in ELSEWHERE and b"\t" in line.text:
        other, mend = ELSEWHERE[first]
        return Cause(0, f"{first.decode()} begins a line of {other}, not of {text.name}", mend)
    *letters, last = (letter.decode() for letter in text.kinds)
    return Cause(0, f"{visible(first[:16])} begins no line",
                 f"begin the line with {', '.join(letters)} or {last} and a tab; after E comes the line end")


def _count(line, text):
    letter, *fields = line.text.split(b"\t")
    wanted = len(text.kinds[letter].fields)
    if len(fields) == wanted:
        return None
    form = f"the form is {pattern(letter, text.kinds)}"
    if len(fields) > wanted and not any(fields[wanted:]):
        return Cause(wanted + 1, "a trailing tab", f"take the tab at the end of the line out; {form}")
    if len(fields) > wanted and b"" in fields:
        return Cause(fields.index(b"") + 1, "two tabs in a row, which make an empty field", f"leave one tab; {form}")
    which = "too many" if len(fields) > wanted else "too few"
    return Cause(None, f"{which} fields: {len(fields) + 1}, and {wanted + 1} are wanted", form)


def _fields(line, text):
    letter, *fields = line.text.split(b"\t")
    for place, (field, data) in enumerate(zip(text.kinds[letter].fields, fields), 1):
        fault = faulty(field.form, data)
        if fault:
            return Cause(place, *fault)
    return None
