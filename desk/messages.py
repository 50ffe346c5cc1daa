"""A refusal in words that are enough to mend the input."""
from desk.causes import cause_of
from desk.layout import READS
from desk.refusals import ground, remedy
from desk.visible import shortened, visible


def refusal(source, refused, program="settle"):
    """the message for a refusal by a program: where, the line, the field, the ground, the cause, what to do"""
    name, number = source.place_of(refused.line)
    parts = [f"{name}, line {number}: refusal {refused.number}: {ground(refused.number)}", source.counted(refused.line)]
    line = source.line(refused.line)
    if line:
        cause = cause_of(program, refused, line, source)
        mend = cause.mend or remedy(refused.number)
        parts += [shown(line), _field(line, cause.field, READS[program].kinds)]
        parts += [cause.words and f"cause: {cause.words}", f"to mend it: {mend}"]
    return "\n  ".join(filter(None, parts))


def more_follows(source):
    """the message for an accepted input that goes on after its end line"""
    return (f"{source.name}: more follows the end line (line {source.end_line_number()}), and is not read: "
            "a further day needs an input of its own")


def shown(line):
    """the line itself, or None where there is none"""
    if not line.complete:
        return f"line {line.number} (no line end): {shortened(line.text, line.length)}" if line.length else None
    return f"line {line.number}: {shortened(line.text, line.length)}" if line.length else f"line {line.number} is empty"


def _field(line, place, kinds):
    """the field at fault"""
    if place is None:
        return None
    letter, *fields = line.text.split(b"\t")
    names = ["letter", *(field.name for field in kinds[letter].fields)] if letter in kinds else ["letter"]
    name = names[place] if place < len(names) else "one too many"
    return f"field {place + 1} ({name}): {visible([letter, *fields][place]) or 'empty'}"
