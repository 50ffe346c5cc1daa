"""Called as people call programs."""
import os
import pathlib
import signal
import tty

from common import DAY, DAY_SHEET, EXAMPLE, EXAMPLE_SHEET, FIREBOXER, GOOD, HEADER, FrontEnd, lines, processes, program

BAD = lines(HEADER, "X")


class Inputs(FrontEnd):
    """Where an input can come from."""

    def settles(self, answer, sheet=EXAMPLE_SHEET):
        self.assertEqual((answer.returncode, answer.stdout, answer.stderr), (0, sheet, ""))

    def test_file_from_any_folder(self):
        self.settles(self.call("settle", EXAMPLE))
        self.settles(self.call("settle", "examples/example.txt", cwd=EXAMPLE.parents[1]))

    def test_through_a_symlink(self):
        (self.folder / "link").symlink_to(FIREBOXER)
        (self.folder / "again").symlink_to("link")
        self.settles(self.call("settle", EXAMPLE, command=self.folder / "again"))
        self.settles(self.shell('PATH=$PWD:$PATH; link settle "$example"'))

    def test_standard_input(self):
        for words in (["settle"], ["settle", "-"], ["settle", "/dev/stdin"]):
            self.settles(self.call(*words, input=EXAMPLE.read_bytes()))
            with open(EXAMPLE, "rb") as file:
                self.settles(self.call(*words, stdin=file))

    def test_pipes(self):
        self.settles(self.shell('"$fireboxer" settle <(cat "$example")'))
        self.settles(self.shell('mkfifo pipe; cat "$day" >pipe & "$fireboxer" settle pipe'), DAY_SHEET)
        self.settles(self.shell('while IFS= read -r line; do echo "$line"; done <"$example" | "$fireboxer" settle'))

    def test_a_pipe_that_stays_open_is_not_waited_for(self):
        for data, status in ((BAD, 1), (GOOD, 0)):
            process = self.start("settle")
            process.stdin.write(data)
            process.stdin.flush()
            self.assertEqual(process.wait(timeout=10), status)
            process.communicate()

    def test_names_that_look_like_options(self):
        self.file("-odd", EXAMPLE.read_bytes())
        self.settles(self.call("settle", "--", "-odd"))
        self.settles(self.call("settle", "./-odd"))

    def test_names_with_strange_signs(self):
        for name, shown in (("a b.txt", "a b.txt"), ("ä.txt", "ä.txt"), ("new\nline", "new<0x0A>line"),
                            (b"\xff\x1b.txt", "<0xFF><0x1B>.txt")):
            path = os.path.join(os.fsencode(self.folder), os.fsencode(name))
            pathlib.Path(os.fsdecode(path)).write_bytes(BAD)
            answer = self.call("settle", name)
            self.assertEqual(answer.returncode, 1)
            self.assertIn(f"fireboxer: {shown}, line 2: refusal 14", answer.stderr)

    def test_what_can_not_be_read_is_no_refusal(self):
        for word, reason in ((".", "it is a folder"), ("none", "No such file"),
                             ("/proc/self/mem", "Input/output error"), (f"{EXAMPLE}/x", "Not a directory")):
            answer = self.call("settle", word)
            self.assertEqual((answer.returncode, answer.stdout), (2, b""))
            self.assertIn(f"{word} can't be read: {reason}", answer.stderr)
        for script in ('"$fireboxer" settle <.', '"$fireboxer" settle - <.', '"$fireboxer" settle <&-'):
            answer = self.shell(script)
            self.assertEqual((answer.returncode, answer.stdout), (2, b""))
            self.assertIn("standard input can't be read: ", answer.stderr)

    def test_a_read_error_midway_is_no_refusal(self):
        # the master of a terminal whose other side is gone gives an error after the last bytes
        master, slave = os.openpty()
        tty.setraw(slave)
        process = self.start("settle", stdin=master)
        os.write(slave, GOOD[:1000])
        first = process.stdout.readline()
        os.close(slave)
        rest, said = process.communicate(timeout=10)
        os.close(master)
        self.assertEqual((process.returncode, first, rest), (2, EXAMPLE_SHEET.split(b"\n")[0] + b"\n", b""))
        self.assertEqual(said, b"fireboxer: standard input can't be read: Input/output error\n")


class Outputs(FrontEnd):
    """Where sheets go."""

    def test_file_is_whole(self):
        answer = self.call("settle", EXAMPLE, "-o", "a.sheet")
        self.assertEqual((answer.returncode, answer.stdout, answer.stderr), (0, b"", ""))
        self.assertEqual((self.folder / "a.sheet").read_bytes(), EXAMPLE_SHEET)
        self.assertEqual(os.listdir(self.folder), ["a.sheet"])

    def test_refused_leaves_what_was_there(self):
        self.file("bad.txt", BAD)
        self.file("a.sheet", b"before")
        answer = self.call("settle", "bad.txt", "-o", "a.sheet")
        self.assertEqual(answer.returncode, 1)
        self.assertIn("a.sheet is not written", answer.stderr)
        self.assertEqual((self.folder / "a.sheet").read_bytes(), b"before")
        self.assertEqual(sorted(os.listdir(self.folder)), ["a.sheet", "bad.txt"])

    def test_folder(self):
        (self.folder / "out").mkdir()
        self.file("bad.txt", BAD)
        answer = self.call("settle", EXAMPLE, "bad.txt", DAY, "-o", "out")
        self.assertEqual(answer.returncode, 1)
        self.assertEqual(sorted(os.listdir(self.folder / "out")), ["day.sheet", "example.sheet"])
        self.assertEqual((self.folder / "out" / "day.sheet").read_bytes(), DAY_SHEET)

    def test_rights_and_links_stay(self):
        self.file("real", b"")
        (self.folder / "real").chmod(0o640)
        (self.folder / "link").symlink_to("real")
        self.assertEqual(self.call("settle", EXAMPLE, "-o", "link").returncode, 0)
        self.assertTrue((self.folder / "link").is_symlink())
        self.assertEqual((self.folder / "real").read_bytes(), EXAMPLE_SHEET)
        self.assertEqual((self.folder / "real").stat().st_mode & 0o777, 0o640)

    def test_several_only_where_asked(self):
        answer = self.call("settle", EXAMPLE, EXAMPLE)
        self.assertEqual((answer.returncode, answer.stdout), (2, b""))
        self.assertIn("-o FOLDER", answer.stderr)
        self.assertIn("--join", answer.stderr)
        self.assertEqual(self.call("settle", "--join", EXAMPLE, DAY).stdout, EXAMPLE_SHEET + DAY_SHEET)
        self.assertEqual(self.call("settle", "--join", EXAMPLE, DAY, "-o", "all").returncode, 0)
        self.assertEqual((self.folder / "all").read_bytes(), EXAMPLE_SHEET + DAY_SHEET)

    def test_several_with_one_missing_settle_nothing(self):
        answer = self.call("settle", "--join", EXAMPLE, "none")
        self.assertEqual((answer.returncode, answer.stdout), (2, b""))

    def test_devices_stay_devices(self):
        self.assertEqual(self.call("settle", EXAMPLE, "-o", "/dev/null").returncode, 0)
        self.assertTrue(pathlib.Path("/dev/null").is_char_device())
        self.assertEqual(self.call("settle", EXAMPLE, "-o", "-").stdout, EXAMPLE_SHEET)
        self.assertEqual(self.call("settle", EXAMPLE, "-o", "/dev/stdout").stdout, EXAMPLE_SHEET)

    def test_what_can_not_be_written(self):
        self.file("plain", b"")
        for place, reason in (("/dev/full", "No space left"), ("none/a", "No such file"), ("/proc/a", "No such file"),
                              ("plain/a", "Not a directory"), ("none/", "there is no such folder")):
            answer = self.call("settle", EXAMPLE, "-o", place)
            self.assertEqual((answer.returncode, answer.stdout), (2, b""))
            self.assertIn(f"{place} can't be written: {reason}", answer.stderr)
        for command in ("settle $example", "settle --table $example", "inspect $example", "help", "settle --help",
                        "--version"):
            answer = self.shell(f'"$fireboxer" {command} >/dev/full')
            self.assertEqual(answer.returncode, 2, command)
            self.assertIn("standard output can't be written: No space left", answer.stderr)
        self.assertEqual(self.shell('"$fireboxer" settle "$example" >&-').returncode, 2)

    def test_no_input_is_written_over(self):
        self.file("a.txt", GOOD)
        for script in ('"$fireboxer" settle a.txt -o a.txt', '"$fireboxer" settle -o a.txt <a.txt'):
            answer = self.shell(script)
            self.assertEqual(answer.returncode, 2)
            self.assertIn("a.txt is an input", answer.stderr)
        self.assertEqual((self.folder / "a.txt").read_bytes(), GOOD)

    def test_two_inputs_of_one_name(self):
        for name in ("one", "two"):
            (self.folder / name).mkdir()
            self.file(f"{name}/a.txt", GOOD)
        answer = self.call("settle", "one/a.txt", "two/a.txt", "-o", ".")
        self.assertEqual(answer.returncode, 2)
        self.assertIn("one/a.txt and two/a.txt would both be written to ./a.sheet", answer.stderr)

    def test_head_ends_it_quietly(self):
        # the sheet fits into a pipe, so its second part has to come when head is gone
        answer = self.shell('{ head -c 100000 "$day"; sleep 1; tail -c +100001 "$day"; } | "$fireboxer" settle - | head -n 1; '
                            'echo "${PIPESTATUS[1]}"')
        self.assertEqual((answer.stdout, answer.stderr), (DAY_SHEET.split(b"\n")[0] + b"\n141\n", ""))


class Words(FrontEnd):
    """Misuse and help."""

    def test_misuse(self):
        for words in (["none"], ["settle", "-x"], ["settle", "--table", "--csv"], ["settle", "--separator", ","],
                      ["settle", "-", "-"], ["settle", "--csv", "--separator", "x"], ["inspect", EXAMPLE, EXAMPLE],
                      ["settle", "-o"], ["--none"], ["help", "none"]):
            answer = self.call(*words)
            self.assertEqual((answer.returncode, answer.stdout), (2, b""), words)
            self.assertTrue(answer.stderr.startswith("fireboxer: "), answer.stderr)
            self.assertEqual(answer.stderr.count("\n"), 1, answer.stderr)

    def test_help(self):
        from desk import endings, refusals
        first = self.call().stdout
        for words in (["help"], ["--help"], ["-h"]):
            self.assertEqual(self.call(*words).stdout, first)
        for words in (["settle", "--help"], ["help", "settle"], ["settle", "-h", "none"], ["help", "year"]):
            answer = self.call(*words)
            self.assertEqual((answer.returncode, answer.stderr), (0, ""))
            self.assertIn(refusals.help_table(), answer.stdout.decode())
            self.assertIn(endings.table(), answer.stdout.decode())
        self.assertIn(endings.table(), first.decode())


class Signals(FrontEnd):
    """Stopped midway, it leaves nothing behind."""

    def stopped(self, number, whole_group):
        process = self.started("settle", "-o", "a.sheet")
        self.assertEqual(len(os.listdir(self.folder)), 1)
        (os.killpg if whole_group else os.kill)(process.pid, number)
        _, said = process.communicate(timeout=10)
        self.assertEqual((process.returncode, said), (-number, b""))
        self.assertEqual(os.listdir(self.folder), [])
        self.assertEqual(processes(lambda group, _: group == process.pid), [])

    def started(self, *words):
        """the front end in the midst of a day, with its program"""
        process = self.start(*words)
        process.stdin.write(DAY.read_bytes()[:40000])
        process.stdin.flush()
        self.wait_for(lambda: self.program_of(process))
        return process

    def program_of(self, process):
        return processes(lambda group, command: group == process.pid and b"out/settle" in command)

    def test_signals(self):
        for number, whole_group in ((signal.SIGINT, True), (signal.SIGTERM, False), (signal.SIGHUP, False)):
            with self.subTest(number):
                self.stopped(number, whole_group)

    def test_a_program_that_is_killed_is_no_refusal(self):
        process = self.started("settle")
        os.kill(*self.program_of(process), signal.SIGKILL)
        _, said = process.communicate(timeout=10)
        self.assertEqual(process.returncode, 2)
        self.assertIn(b"ended by signal 9", said)


class Exactly(FrontEnd):
    """Standard output is what the program printed, refused or not."""

    def test_what_the_program_printed(self):
        for data in (GOOD, BAD, b"", GOOD + GOOD, GOOD[:-1], DAY.read_bytes()[:100000]):
            self.assertEqual(self.call("settle", input=data).stdout, program(data))
