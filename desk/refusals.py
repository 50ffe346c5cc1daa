"""The one list of refusals. Help and messages come from it; a test holds it to the enum of crates/vocabulary and to the
table of the README. A later number is one entry more, at its place in the numbers' order."""
import collections

# the number that the proved program prints, the case of the enum in crates/vocabulary, the ground, what to do about it
Refusal = collections.namedtuple("Refusal", "number case ground remedy")

REFUSALS = (
    Refusal(1, "WrongMoment",
            "wrong moment: a contract after the first sample, a second header, anything else before the header, "
            "an end before the last sample, a sample after it, a line of a carry block anywhere but after the header; "
            "(shares) anything else than a U line after the end",
            "put the lines in order: one D line, the carry block where there is one, the C lines, all the S lines of "
            "all the quarter hours, E"),
    Refusal(2, "BadInterval",
            "interval not 1, 3 or 4 seconds",
            "write 1, 3 or 4 as the D line's interval"),
    Refusal(3, "BadLot",
            "lot not 1 to 1,000,000 kW",
            "write the minimum lot in kW, or - for the usual one"),
    Refusal(4, "BadDate",
            "no real day of 2000-01-01 to 2099-12-31",
            "write a day of the calendar as YYYY-MM-DD"),
    Refusal(5, "BadQuarters",
            "not 1 to 100 quarter hours",
            "write how many quarter hours the input holds; a day has 96, or 92 or 100 where the clock changes"),
    Refusal(6, "TooManyContracts",
            "a 33rd contract in the direction",
            "leave at most 32 C lines for each direction"),
    Refusal(7, "BadIdentifier",
            "identifier not 1 to 16 of A-Z, a-z, 0-9 and hyphen",
            "rename the contract with these signs alone"),
    Refusal(8, "IdentifierTaken",
            "identifier already there, in either direction",
            "give each contract an identifier of its own, also across P and N"),
    Refusal(9, "BadAward",
            "award not 1 to 2,000,000 kW",
            "write the awarded power in kW"),
    Refusal(10, "AwardsTooHigh",
            "the direction's awards above 2,000,000 kW in sum",
            "look for an award that is in the wrong unit or there twice"),
    Refusal(11, "BadPrice",
            "price not -9,999,999 to 9,999,999 cent per MWh",
            "write the price in cent per MWh"),
    Refusal(12, "PriceTooLow",
            "price below that of the contract before",
            "sort the C lines of each direction by price, the cheapest first"),
    Refusal(13, "BadPower",
            "setpoint or actual not -2,000,000 to 2,000,000 kW",
            "write both powers in kW; where they are, something is wrong with the recording"),
    Refusal(14, "BadLine",
            "the line is ill-formed",
            "write the line in the form that the input has: docs/RULES.md, or the example in the README"),
    Refusal(15, "NoEnd",
            "the input ended without an end line",
            "end the input with a line E and its line end"),
    Refusal(16, "BufferTooShort",
            "(for programs that call the library) the lent buffer is shorter than the text",
            "lend a longer buffer"),
    Refusal(17, "BadBlockLength",
            "a B line too few or too many in the carry block",
            "put the block in as it ends the sheet of the run before: an O line, and 301, 100 or 75 B lines at an "
            "interval of 1, 3 or 4 seconds"),
    Refusal(18, "BadBlockValue",
            "OGA or UGA not -10,800,000,000 to 10,800,000,000 units, a past setpoint not -2,000,000 to 2,000,000 kW, "
            "or the newest not between UGA and OGA",
            "copy the block anew from the sheet of the run before"),
    Refusal(19, "NoFirstSample",
            "(mend) no line for second 0 before a later one or the end",
            "look for the start of the recording: nothing stands before second 0 that could be filled in from"),
    Refusal(20, "HoleTooLong",
            "(mend) more than 60 seconds in a row are missing before the line",
            "get the missing lines from the archive: a hole of up to 60 seconds is filled, a longer one is not"),
    Refusal(21, "SecondsOutOfOrder",
            "(mend) a second smaller than that of the line before",
            "put the lines in the order of their seconds, or look why the archive has them in another"),
    Refusal(22, "MisplacedShare",
            "(shares) a U line missing, surplus or out of order",
            "give one U line for each contract and quarter hour after E, in the order of the sheet's K lines"),
)

BY_NUMBER = {refusal.number: refusal for refusal in REFUSALS}


def ground(number):
    """the ground of a number in words"""
    return BY_NUMBER[number].ground if number in BY_NUMBER else "a ground that the list of refusals lacks"


def remedy(number):
    """what to do about a number, where no cause tells it better"""
    return BY_NUMBER[number].remedy if number in BY_NUMBER else "look the number up in docs/RULES.md"


def help_table():
    """the list as help prints it"""
    rows = [f"  {refusal.number:2}  {refusal.ground}" for refusal in REFUSALS]
    return "\n".join(["refusals, by the number in the line R of a sheet:", *rows])


def readme_table():
    """the list as the README has it"""
    rows = [f"| {refusal.number} | {refusal.ground} | {refusal.remedy} |" for refusal in REFUSALS]
    return "\n".join(["| No. | Ground | What to do |", "|---|---|---|", *rows])
