"""The form of what the programs read in names: the kinds of lines, their fields, and what stands before a line of an
input that is refused."""
import collections

# a field's name in messages, and what form it has: date, number, bound, lot, direction or identifier
Field = collections.namedtuple("Field", "name form")
Kind = collections.namedtuple("Kind", "name fields")

KINDS = {
    b"D": Kind("header", (Field("date", "date"), Field("interval in seconds", "number"), Field("lot in kW", "lot"),
                          Field("number of quarter hours", "number"))),
    b"O": Kind("bounds of the carry block", (Field("OGA in units", "bound"), Field("UGA in units", "bound"))),
    b"B": Kind("past setpoint of the carry block", (Field("setpoint in kW", "number"),)),
    b"C": Kind("contract", (Field("direction", "direction"), Field("identifier", "identifier"),
                            Field("award in kW", "number"), Field("price in cent per MWh", "number"))),
    b"S": Kind("sample", (Field("setpoint in kW", "number"), Field("actual in kW", "number"))),
    b"E": Kind("end", ()),
}

# the kinds of lines of a recording, which is mended before it is settled
RECORDING = {
    b"D": KINDS[b"D"],
    b"G": Kind("recorded sample", (Field("second", "number"), *KINDS[b"S"].fields)),
    b"E": KINDS[b"E"],
}

# the kinds of lines of an input that the operator's shares follow
WITH_SHARES = {
    **KINDS,
    b"U": Kind("share", (Field("quarter hour", "number"), Field("direction", "direction"),
                         Field("identifier", "identifier"), Field("share in kWh", "number"))),
}

# what a program reads, by its name: what that is called, and its kinds of lines
Text = collections.namedtuple("Text", "name kinds")
READS = {"settle": Text("an input", KINDS), "mend": Text("a recording", RECORDING),
         "checker": Text("an input with shares", WITH_SHARES)}

# the kinds of lines of a carry block, and how many B lines it has, by the interval in seconds
BLOCK = (b"O", b"B")
PAST = {1: 301, 3: 100, 4: 75}

Contract = collections.namedtuple("Contract", "line direction identifier award price")


def pattern(letter, kinds):
    """how a kind of line is written, with <TAB> for the tab"""
    return "<TAB>".join([letter.decode(), *(field.name.split(" in ")[0] for field in kinds[letter].fields)])


class Before:
    """What stands before a refused line. All of it was accepted: a header, perhaps a carry block, contracts, and after
    them samples alone."""

    def __init__(self, source, line_number):
        lines = source.head_lines()[:line_number - 1]
        fields = [line.split(b"\t") for line in lines]
        self.header = fields[0] if fields else None
        # OGA and UGA of the carry block, how many setpoints follow them, and the sheet that the desk took it from
        self.bounds = next((tuple(map(int, field[1:])) for field in fields if field[0] == b"O"), None)
        self.past = sum(field[0] == b"B" for field in fields)
        self.after = source.after
        self.contracts = [Contract(source.place_of(number)[1], *field[1:3], int(field[3]), int(field[4]))
                          for number, field in enumerate(fields, 1) if field[0] == b"C"]
        self.samples = line_number - 1 - sum(field[0] != b"S" for field in fields)

    def of_direction(self, direction):
        """the contracts of a direction"""
        return [contract for contract in self.contracts if contract.direction == direction]

    def past_wanted(self):
        """how many setpoints a carry block has at the header's interval"""
        return PAST[int(self.header[2])]

    def quarters(self):
        """how many quarter hours the header asks for"""
        return int(self.header[4])

    def samples_of_quarter(self):
        """how many samples a quarter hour has"""
        return 900 // int(self.header[2])

    def samples_wanted(self):
        """how many samples the header asks for"""
        return self.quarters() * self.samples_of_quarter()
