"""The commands: one table, and a module of its name for each, with `arguments(parser)` and `run(options)`.

`arguments` adds the words that the command takes; `run` answers the exit status."""

COMMANDS = {
    "settle": "settle inputs and print their sheets",
    "year": "settle every input of a folder, each to a sheet of its own, on all processors",
    "mend": "fill the holes of a recording from an archive, and print its samples",
    "shares": "check the operator's shares of the surplus against an input",
    "inspect": "say what is in an input, or why it is refused, without a sheet",
    "explain": "say where the lines and the rest of a sheet differ from the pool's figures, and how far they may",
}
