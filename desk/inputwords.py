"""Words that are inputs alone, as of `settle` most of the time: read without argparse, which takes a third of the start."""
import types


def inputs_alone(module, words):
    """what a command is asked where its words are any number of inputs and no options, or None: then argparse reads them"""
    if any(word.startswith("-") and word != "-" for word in words):
        return None
    unset = Unset()
    module.arguments(unset)
    if unset.inputs is None:
        return None
    setattr(unset.asked, unset.inputs, list(words))
    return unset.asked


class Unset:
    """Is told of a command's words in the place of a parser, and learns what each option is that is not given."""

    def __init__(self):
        self.asked = types.SimpleNamespace()
        # the name of the words that are inputs, where these are the only ones that a command takes, and any number of them
        self.inputs = None
        self.epilog = ""

    def add_argument(self, *names, nargs=None, action="store", dest=None, default=None, **_):
        """a word or an option"""
        if not names[0].startswith("-"):
            self.inputs = names[0] if nargs == "*" else None
            return
        name = dest or next(name for name in names if name.startswith("--"))[2:].replace("-", "_")
        # of two options for one thing the first says what it is where none is given
        if not hasattr(self.asked, name):
            setattr(self.asked, name, False if action == "store_true" else default)

    def add_mutually_exclusive_group(self):
        """options of which one is given at most: none is"""
        return self
