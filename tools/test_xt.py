#!/usr/bin/env python3
"""Tests of the script xt, over a stand-in for the program: python3 tools/test_xt.py

A copy of the script runs in a folder of its own, so that neither the program nor the kit has to be there. What bundle it makes of files is held
against a maker of bundles that stands here."""
import os
import pathlib
import resource
import shutil
import signal
import struct
import subprocess
import tempfile
import time
import unittest

SCRIPT = pathlib.Path(__file__).resolve().parent.parent / "xt"
KINDS = {".typeobject": 1, ".cdr": 2, ".idl": 3, ".json": 4}
ALL_OCTETS = bytes(range(256)) * 3
COPIES = "#!/bin/sh\nexec cat\n"
TELLS_WORDS = '#!/bin/sh\nfor word; do printf "<%s>" "$word"; done\n'


def record(kind, payload):
    return struct.pack(">BI", kind, len(payload)) + payload


def bundle_of(name, octets, given=b""):
    """The records of a file with these octets."""
    if name == "-":
        return given
    ending = name[name.rindex(".") :]
    if ending == ".bundle":
        return octets
    if ending == ".jsonl":
        return b"".join(record(4, line) for line in octets.split(b"\n") if line)
    return record(KINDS[ending], octets)


class Script(unittest.TestCase):
    def setUp(self):
        self.folder = tempfile.mkdtemp(prefix="try xt ")
        self.addCleanup(shutil.rmtree, self.folder)
        self.top = os.path.join(self.folder, "the top")
        self.work = os.path.join(self.folder, "work")
        self.scratch = os.path.join(self.folder, "scratch")
        for it in (self.top, self.work, self.scratch):
            os.mkdir(it)
        shutil.copy(SCRIPT, self.top)
        open(f"{self.top}/crates.txt", "w").close()
        self.program(COPIES)

    def program(self, text):
        """A program that stands in for the one that is proved."""
        os.makedirs(f"{self.top}/crates/xt/out", exist_ok=True)
        with open(f"{self.top}/crates/xt/out/xt", "w") as it:
            it.write(text)
        os.chmod(f"{self.top}/crates/xt/out/xt", 0o755)

    def file(self, name, octets):
        with open(os.path.join(self.work, name), "wb") as it:
            it.write(octets)
        return name

    def start(self, *words, **how):
        env = {**os.environ, "TMPDIR": self.scratch, **how.pop("env", {})}
        how = {"stdin": subprocess.PIPE, "stdout": subprocess.PIPE, "stderr": subprocess.PIPE, **how}
        return subprocess.Popen([f"{self.top}/xt", *words], cwd=self.work, env=env, **how)

    def run_xt(self, *words, given=b"", **how):
        """The status, the output and what was said."""
        with self.start(*words, **how) as it:
            out, said = it.communicate(given, timeout=60)
            return it.returncode, out, said.decode()

    def is_bundle(self, files, given=b""):
        for name, octets in files:
            if name != "-":
                self.file(name, octets)
        wanted = b"".join(bundle_of(name, octets, given) for name, octets in files)
        self.assertEqual(self.run_xt("show", "--", *[name for name, _ in files], given=given), (0, wanted, ""))
        self.assertEqual(os.listdir(self.scratch), [])

    def is_refused(self, *files, names):
        """That nothing runs, with a line for each of these names."""
        self.program("#!/bin/sh\ntouch ran\n")
        status, out, said = self.run_xt("show", "--", *files)
        self.assertEqual((status, out), (2, b""))
        lines = said.splitlines()
        self.assertEqual(len(lines), len(names), said)
        for line, name in zip(lines, names):
            self.assertTrue(line.startswith(f"xt: {name} "), line)
        self.assertFalse(os.path.exists(f"{self.work}/ran"))
        self.assertEqual(os.listdir(self.scratch), [])


class Files(Script):
    def test_each_ending(self):
        self.is_bundle([(f"all{ending}", ALL_OCTETS) for ending in (*KINDS, ".bundle")])

    def test_octets_before_and_behind_a_line_feed(self):
        self.is_bundle([(f"{n}{ending}", octets) for ending in KINDS for n, octets in enumerate((b"\n\n", b"\0", b"\n\0\n", b"\xff\xfe"))])

    def test_empty_files(self):
        self.is_bundle([(f"none{ending}", b"") for ending in (*KINDS, ".bundle", ".jsonl")])

    def test_lengths_of_each_octet(self):
        self.is_bundle([(f"{n}.cdr", b"x" * n) for n in (1, 127, 128, 255, 256, 257, 511, 65535, 65536, 16777216, 16909060)])

    def test_lines_of_json(self):
        text = "\n\n{\"x\":1}\n\n{\"y\":\"é\u2028\U0001f600\"} \r\n\t\n\r\n\\u0000 %s %d \\n\nlast".encode()
        self.is_bundle([("a.jsonl", text), ("b.json", text), ("c.jsonl", b"\n"), ("d.jsonl", b"1\n"), ("e.jsonl", b"\xff\x80\n")])

    def test_lines_of_any_length(self):
        self.is_bundle([("a.jsonl", b"\n".join(b"x" * n for n in (1, 255, 256, 4095, 4096, 65535, 65536, 100000, 3000000, 2)))])

    def test_a_nul_in_a_line_stays(self):
        self.is_bundle([("a.jsonl", b"{\"x\":\0\x001}\n\0\n")])

    def test_names(self):
        names = ("a b.idl", " .idl", "n\nl.cdr", "tail\n.json", "-x.idl", "--.idl", "-.jsonl", "x=1.jsonl", "'\"$(touch ran)`.idl", "*.cdr", "\\.json", "é.idl", ".idl", "-e.jsonl")
        self.is_bundle([(name, name.encode()) for name in names])
        self.assertFalse(os.path.exists(f"{self.work}/ran"))

    def test_a_name_that_is_no_text(self):
        name = os.fsdecode(b"\xff\x80.idl")
        self.is_bundle([(name, b"x")])

    def test_paths(self):
        self.file("-x.idl", b"x")
        self.assertEqual(self.run_xt("show", "--", "./-x.idl", f"{self.work}/-x.idl")[:2], (0, record(3, b"x") * 2))

    def test_standard_input_among_files(self):
        given = record(2, ALL_OCTETS)
        self.is_bundle([("a.idl", b"a"), ("-", b""), ("b.jsonl", b"1\n2")], given)
        self.is_bundle([("a.jsonl", b"1"), ("-", b"")], given)
        self.is_bundle([("-", b"")], given)

    def test_standard_input_is_not_read_without_a_dash(self):
        self.is_bundle([("a.idl", b"a")], b"")
        self.assertEqual(self.run_xt("show", "--", "a.idl", given=b"given")[:2], (0, record(3, b"a")))

    def test_no_file_is_an_empty_bundle(self):
        self.assertEqual(self.run_xt("show", "--", given=b"given"), (0, b"", ""))

    def test_a_link_to_a_file(self):
        self.file("a.data", ALL_OCTETS)
        os.symlink("a.data", f"{self.work}/a.cdr")
        self.assertEqual(self.run_xt("show", "--", "a.cdr")[:2], (0, record(2, ALL_OCTETS)))

    def test_pipes_with_records_of_their_own(self):
        os.mkfifo(f"{self.work}/a.jsonl")
        os.mkfifo(f"{self.work}/b.bundle")
        with self.start("show", "--", "a.jsonl", "b.bundle") as it:
            with open(f"{self.work}/a.jsonl", "wb") as lines:
                lines.write(b"1\n\n2\n")
            with open(f"{self.work}/b.bundle", "wb") as records:
                records.write(record(2, b"x"))
            self.assertEqual(it.communicate(timeout=60), (record(4, b"1") + record(4, b"2") + record(2, b"x"), b""))

    def test_ten_thousand_files(self):
        names = [self.file(f"{n}.cdr", b"%d" % (n % 1237)) for n in range(10000)]
        begun = time.monotonic()
        status, out, said = self.run_xt("read", "--", *names)
        self.assertEqual((status, out, said), (0, b"".join(record(2, b"%d" % (n % 1237)) for n in range(10000)), ""))
        print(f"ten thousand files: {time.monotonic() - begun:.2f} s")

    def test_ten_thousand_lines(self):
        lines = [b'{"vehicle":"rover-%d","east":%d}' % (n, n) for n in range(10000)]
        self.file("a.jsonl", b"\n".join(lines))
        begun = time.monotonic()
        self.assertEqual(self.run_xt("write", "--", "a.jsonl"), (0, b"".join(record(4, line) for line in lines), ""))
        print(f"ten thousand lines: {time.monotonic() - begun:.2f} s")


class Refused(Script):
    def test_other_endings(self):
        self.file("a.txt", b"")
        self.file("a.idl", b"")
        self.is_refused("a.idl", "a.txt", "", "idl", "a.idl ", "a.IDL", names=["a.txt", "''", "idl", r"a.idl\ ", "a.IDL"])

    def test_a_mark_behind_the_mark(self):
        self.file("a.idl", b"")
        self.is_refused("--", "a.idl", names=["--"])

    def test_missing(self):
        os.symlink("nowhere", f"{self.work}/link.json")
        self.is_refused("none.idl", "no folder/none.cdr", "link.json", names=["none.idl", r"no\ folder/none.cdr", "link.json"])

    def test_all_are_looked_at_first(self):
        self.file("a.idl", b"")
        self.is_refused("a.idl", "-", "none.jsonl", names=["none.jsonl"])

    def test_folders(self):
        for ending in (*KINDS, ".bundle", ".jsonl"):
            os.mkdir(f"{self.work}/it{ending}")
        files = [f"it{ending}" for ending in (*KINDS, ".bundle", ".jsonl")]
        self.is_refused(*files, names=files)

    def test_a_name_with_a_line_feed_stays_in_its_line(self):
        self.is_refused("n\nl.idl", names=[r"$'n\nl.idl'"])

    def test_pipes_have_no_size(self):
        names = [f"it{ending}" for ending in KINDS]
        for name in names:
            os.mkfifo(f"{self.work}/{name}")
        self.is_refused(*names, names=names)

    def test_longer_than_a_record_may_be(self):
        for name, size in (("a.idl", 1), ("long.cdr", 2**32), ("longer.idl", 2**33 + 7)):
            os.truncate(os.path.join(self.work, self.file(name, b"")), size)
        self.is_refused("a.idl", "long.cdr", "longer.idl", names=["long.cdr", "longer.idl"])

    @unittest.skipUnless(os.geteuid() == 0 and shutil.which("setpriv"), "another user is needed")
    def test_unreadable(self):
        self.file("a.idl", b"")
        self.file("open.idl", b"")
        os.chmod(f"{self.work}/a.idl", 0o600)
        for it in (self.folder, self.top, self.work):
            os.chmod(it, 0o755)
        os.chmod(self.scratch, 0o777)
        words = ["setpriv", "--reuid", "65534", "--regid", "65534", "--clear-groups", f"{self.top}/xt", "show", "--", "a.idl", "open.idl"]
        it = subprocess.run(words, cwd=self.work, capture_output=True, env={**os.environ, "TMPDIR": self.scratch})
        self.assertEqual((it.returncode, it.stdout, it.stderr), (2, b"", b"xt: a.idl can't be read\n"))

    def test_no_folder_for_heads(self):
        self.file("a.idl", b"")
        status, out, _ = self.run_xt("show", "--", "a.idl", env={"TMPDIR": f"{self.folder}/none"})
        self.assertEqual((status, out), (2, b""))


class Words(Script):
    def test_words_go_on_as_they_are(self):
        self.program(TELLS_WORDS)
        words = ["judge", "a b", "", "*", "#f1", "-n", "é"]
        told = "".join(f"<{it}>" for it in words).encode()
        self.assertEqual(self.run_xt(*words), (0, told, ""))
        self.file("a.idl", b"")
        self.assertEqual(self.run_xt(*words, "--", "a.idl"), (0, told, ""))

    def test_without_a_mark_the_input_is_standard_input(self):
        self.assertEqual(self.run_xt("show", "a.idl", given=ALL_OCTETS), (0, ALL_OCTETS, ""))

    def test_a_mark_in_place_of_a_command_is_a_word(self):
        self.program(TELLS_WORDS)
        self.assertEqual(self.run_xt("--", "a.idl"), (0, b"<--><a.idl>", ""))

    def test_help(self):
        for word in ("help", "--help", "-h"):
            status, out, said = self.run_xt(word)
            self.assertEqual((status, said), (0, ""))
            self.assertIn(b"\ncompare REP [POLICY] ", out)
            self.assertIn(f"{self.top}/docs/COMMANDS.md\n".encode(), out)
            self.assertLessEqual(out.count(b"\n"), 24)

    def test_no_word(self):
        self.assertEqual(self.run_xt(), (2, b"", self.run_xt("help")[1].decode()))

    def test_help_with_more_words_is_no_help(self):
        self.program(TELLS_WORDS)
        self.assertEqual(self.run_xt("help", "read"), (0, b"<help><read>", ""))
        self.assertEqual(self.run_xt(""), (0, b"<>", ""))

    def test_the_script_by_a_link(self):
        os.symlink(f"{self.top}/xt", f"{self.folder}/link")
        it = subprocess.run([f"{self.folder}/link", "show"], input=b"x", capture_output=True)
        self.assertEqual((it.returncode, it.stdout, it.stderr), (0, b"x", b""))


class Statuses(Script):
    def test_of_a_program_that_stops_reading(self):
        self.file("long.bundle", b"x" * 20000000)
        self.file("long.jsonl", b"1\n" * 2000000)
        for status in (0, 1, 3, 7):
            self.program(f"#!/bin/sh\nhead -c 5\nexit {status}\n")
            for name, out in (("long.bundle", b"xxxxx"), ("long.jsonl", record(4, b"1")[:5])):
                self.assertEqual(self.run_xt("show", "--", name), (status, out, ""))
        self.is_cleared()

    def is_cleared(self):
        """That what the script made is gone, at latest in some seconds."""
        for _ in range(100):
            if not os.listdir(self.scratch):
                return
            time.sleep(0.1)
        self.assertEqual(os.listdir(self.scratch), [])

    def test_of_a_program_that_is_killed(self):
        self.file("a.idl", b"x")
        self.program("#!/bin/sh\nkill -KILL $$\n")
        self.assertEqual(self.run_xt("show", "--", "a.idl")[0], -signal.SIGKILL)
        self.is_cleared()

    def test_a_signal_reaches_the_program(self):
        self.file("a.idl", b"x")
        self.program("#!/bin/bash\ntrap 'exit 42' TERM\necho on\nwhile :; do sleep 0.05; done\n")
        with self.start("serve", "--", "a.idl") as it:
            self.assertEqual(it.stdout.readline(), b"on\n")
            it.terminate()
            self.assertEqual(it.wait(timeout=30), 42)

    def test_of_an_output_that_closes(self):
        self.file("long.bundle", b"x" * 20000000)
        reads, writes = os.pipe()
        os.close(reads)
        status, _, said = self.run_xt("show", "--", "long.bundle", stdout=writes)
        os.close(writes)
        self.assertEqual((status, said), (-signal.SIGPIPE, ""))
        self.is_cleared()

    def test_a_file_that_goes_away(self):
        """A file that can't be handed on leaves the bundle incomplete."""
        os.mkfifo(f"{self.work}/wait.bundle")
        self.file("a.jsonl", b"1")
        with self.start("show", "--", "wait.bundle", "-", "a.jsonl") as it:
            with open(f"{self.work}/wait.bundle", "wb"):
                os.remove(f"{self.work}/a.jsonl")
            out, said = it.communicate(b"", timeout=60)
        self.assertEqual((it.returncode, out), (0, b"\4"))
        self.assertIn(b"a.jsonl", said)


class NotBuilt(Script):
    def setUp(self):
        super().setUp()
        os.remove(f"{self.top}/crates/xt/out/xt")
        self.tools = f"{self.folder}/tools"
        os.mkdir(self.tools)

    def rt(self, text):
        """A command rt that stands in for the kit's."""
        with open(f"{self.tools}/rt", "w") as it:
            it.write(text)
        os.chmod(f"{self.tools}/rt", 0o755)

    def without_kit(self):
        folders = [it for it in os.environ["PATH"].split(":") if not os.path.exists(f"{it}/rt")]
        return {"PATH": ":".join([self.tools, *folders])}

    def test_a_missing_rt_is_named(self):
        self.file("a.idl", b"")
        for words in (["show"], ["show", "--", "a.idl"]):
            status, out, said = self.run_xt(*words, env=self.without_kit())
            self.assertEqual((status, out, said.count("\n")), (127, b"", 1))
            self.assertIn("command rt", said)

    def test_help_needs_no_program(self):
        self.assertEqual(self.run_xt("help", env=self.without_kit())[0], 0)

    def test_the_interpreter_runs_it(self):
        self.rt('#!/bin/sh\npwd\nprintf "<%s>" "$@"\ncat\necho "checked: ended status=7" >&2\necho "run=ended status=7 runners=1 proved=no" >&2\nexit 7\n')
        self.file("a.idl", b"x")
        status, out, said = self.run_xt("judge", "A B", "--", "a.idl", env=self.without_kit())
        words = b"<try><--steps><100000000000><--seconds><36000><--><judge><A B>"
        self.assertEqual((status, out), (7, f"{self.top}/crates/xt\n".encode() + words + record(3, b"x")))
        self.assertEqual(said.count("\n"), 1)
        for part in ("interpreter", "a minute", "crates/xt && rt run"):
            self.assertIn(part, said)

    def test_what_its_tools_say_is_passed_on_where_they_fail(self):
        self.rt("#!/bin/sh\necho 'error: why' >&2\necho 'run=none proved=no' >&2\nexit 1\n")
        status, out, said = self.run_xt("show", env=self.without_kit())
        self.assertEqual((status, out), (1, b""))
        self.assertTrue(said.endswith("\nerror: why\nrun=none proved=no\n"), said)

    def test_a_source_that_is_newer(self):
        self.program(COPIES)
        with open(f"{self.top}/crates/xt/lib.rt", "w"):
            pass
        os.utime(f"{self.top}/crates/xt/out/xt", (1, 1))
        self.rt("#!/bin/sh\necho 'run=ended status=0 proved=no' >&2\n")
        self.assertIn("interpreter", self.run_xt("show", env=self.without_kit())[2])


class Installed(Script):
    """The script where a package puts it, without sources."""

    def setUp(self):
        super().setUp()
        os.makedirs(f"{self.folder}/bin")
        os.makedirs(f"{self.folder}/lib/ruhvelma")
        shutil.move(f"{self.top}/xt", f"{self.folder}/bin/xt")
        shutil.move(f"{self.top}/crates/xt/out/xt", f"{self.folder}/lib/ruhvelma/xt")
        shutil.rmtree(self.top)
        os.symlink(f"{self.folder}/bin", self.top)

    def test_it_runs(self):
        self.file("a.idl", b"x")
        self.assertEqual(self.run_xt("show", "--", "a.idl"), (0, record(3, b"x"), ""))
        self.assertIn(b"the manual page xt(1)", self.run_xt("help")[1])

    def test_a_missing_program(self):
        os.remove(f"{self.folder}/lib/ruhvelma/xt")
        status, out, said = self.run_xt("show")
        self.assertEqual((status, out, said.count("\n")), (127, b"", 1))
        self.assertIn("lib/ruhvelma/xt", said)


if __name__ == "__main__":
    unittest.main()
