"""Bytes as people can read them: what can't be seen is named, and nothing reaches the terminal that it would obey."""

NAMES = {"\t": "<TAB>", "\r": "<CR>", "\0": "<NUL>", "\ufeff": "<BOM>", "\u00a0": "<NBSP>", "\x1a": "<CTRL-Z>"}
# the most signs of a line that a message shows
WIDTH = 160


def visible(data):
    """all of it, each sign that can't be seen by its name"""
    text = data.decode("utf-8", "surrogateescape")
    signs = "".join(map(_sign, text))
    ending = len(text) - len(text.rstrip(" "))
    return signs[:len(signs) - ending] + "<SPACE>" * ending


def shortened(data, length):
    """a line of which the first bytes are at hand, cut where it is long"""
    shown = visible(data)
    if length <= len(data) and len(shown) <= WIDTH:
        return shown
    return f"{shown[:WIDTH]}.. ({grouped(length)} bytes)"


def grouped(number):
    """a number with separators"""
    return f"{number:,}"


def _sign(sign):
    if sign in NAMES:
        return NAMES[sign]
    if "\udc80" <= sign <= "\udcff":
        return f"<0x{ord(sign) - 0xdc00:02X}>"
    if sign.isprintable():
        return sign
    return f"<0x{ord(sign):02X}>" if sign < "\x80" else f"<U+{ord(sign):04X}>"
