"""The command: what it prints, its statuses, and that it leaves its input alone."""

import json
import os
from unittest import mock

from cases import GALLERY, HALF, JA, SCHADE, UNTIDY, gallery
from commanding import OF_ONE_FILE, InARoom, run, started
from hraunlik import Corpus, library


class Surveys(InARoom):
    def test_gallery(self):
        status, out, _ = run("survey", "--json", "-r", GALLERY)
        told = {answer["file"]: answer for answer in json.loads(out)["answers"]}
        for path, answer, _ in gallery():
            got = told[str(path)]
            self.assertEqual(tuple(got[k] for k in ("refusal", "place", "sentences", "sound_end")), answer)
        self.assertEqual(status, 1)

    def test_statuses(self):
        good, bad = self.file("good", JA), self.file("bad", JA[:119])
        for files, wanted in (([good], 0), ([good, bad], 1), ([bad, self.room / "none", good], 2), ([self.room], 2)):
            self.assertEqual(run("survey", *files)[0], wanted)
            self.assertEqual(run("survey", "--json", *files)[0], wanted)
        for arguments in ([], ["survey"], ["no-such"], ["survey", "-j", "0", good], ["open", good, "x"], ["explain", "27"]):
            self.assertEqual(run(*arguments)[0], 2, arguments)

    def test_empty_file_is_refused(self):
        status, out, _ = run("survey", self.file("empty", b""))
        self.assertEqual(status, 1)
        self.assertIn(b"refusal 9, an empty file", out)

    def test_missing_and_unreadable(self):
        unreadable = "/proc/self/mem"  # it opens, and reading fails, for root too
        for path, why in ((self.room / "none", "No such file"), (unreadable, "can't be read"), (self.room, "directory")):
            for name, more in OF_ONE_FILE.items():
                status, out, error = run(name, path, *more)
                self.assertEqual((status, why in error, out), (2, True, b""), name)
            for pair in ((path, HALF), (HALF, path)):
                self.assertEqual(run("compare", *pair)[0], 2)
            status, out, _ = run("survey", path, HALF)
            self.assertEqual((status, why in out.decode()), (2, True))
            self.assertIn(b"2 files: 0 accepted, 1 refused, 1 unreadable", out)

    def test_directories(self):
        for name in ("b/2", "b/a/1", "a/3", "4"):
            (self.room / name).parent.mkdir(parents=True, exist_ok=True)
            self.file(name, JA)
        (self.room / "linked").symlink_to(self.room / "nowhere")
        for processes in ("1", "2"):
            _, out, _ = run("survey", "-r", "-j", processes, self.room)
            names = [line.split(":")[0] for line in out.decode().splitlines()[:-1]]
            self.assertEqual(names, [str(self.room / name) for name in ("4", "a/3", "b/2", "b/a/1")])

    def test_directories_without_files(self):
        (self.room / "empty").mkdir()
        status, out, _ = run("survey", "-r", self.room / "empty", HALF)
        self.assertEqual((status, b"an empty directory" in out), (2, True))

    def test_directories_that_cannot_be_read(self):
        self.file("good", JA)
        (self.room / "closed").mkdir()
        listed = os.scandir

        def scandir(path):
            if str(path).endswith("closed"):
                raise PermissionError(13, "Permission denied", path)
            return listed(path)

        with mock.patch.object(os, "scandir", scandir), mock.patch.object(os, "listdir", scandir):
            status, out, _ = run("survey", "-r", self.room)
        self.assertEqual((status, b"closed: can't be read: Permission denied" in out), (2, True))
        self.assertIn(b"2 files: 1 accepted, 0 refused, 1 unreadable", out)

    def test_cures(self):
        """With -v below each line, else by the numbers that one asks for."""
        files = [GALLERY / "22.export", GALLERY / "04.export", GALLERY / "24.export"]
        plain, verbose = (run("survey", *words, *files)[1].decode().splitlines() for words in ([], ["-v"]))
        self.assertEqual(plain[-1], "for the cure: explain 4, explain 22; or survey -v")
        self.assertIn("  Remove the carriage returns (tr -d '\\r').", verbose)
        self.assertEqual(len(verbose), len(plain) + 1)
        self.assertNotIn("for the cure", run("survey", GALLERY / "24.export")[1].decode())

    def test_lines_in_order(self):
        files = [self.file(f"{n:03}", JA[: n % 127]) for n in range(40)]
        files.insert(7, self.room / "none")
        alone, many = run("survey", *files), run("survey", "-j", "3", *files)
        self.assertEqual(alone, many)
        self.assertEqual(len(alone[1].splitlines()), len(files) + 2)


class Openings(InARoom):
    def test_table(self):
        status, out, _ = run("open", UNTIDY, 2)
        self.assertEqual(status, 0)
        self.assertEqual(
            out.decode().splitlines(),
            [
                "sentence 2, editor 0, date 0, origin 1 %% checked",
                "node  word  tag  morphology  edge  parent  secondary  comment",
                "0     Ja    ITJ  --          --    500",
                "1     ja    ITJ  --          SB    501",
                "#500        S    --          SB    501     RE 501     twice",
                "#501        S    --          --    0",
            ],
        )

    def test_refusals(self):
        self.assertEqual(run("open", UNTIDY, 3)[0], 1)
        status, out, error = run("open", HALF, 1, "--json")
        self.assertEqual((status, json.loads(out)["number"]), (1, 1))
        self.assertIn("refusal 3, line 13", error)

    def test_numbers(self):
        self.assertEqual(run("numbers", UNTIDY)[:2], (0, b"2\n1\n"))
        self.assertEqual(run("numbers", HALF)[:2], (1, b"1\n"))
        self.assertEqual(json.loads(run("numbers", UNTIDY, "--json")[1])["numbers"], [2, 1])

    def test_explain(self):
        for number in range(1, 27):
            status, out, _ = run("explain", number)
            self.assertEqual((status, f"Refusal {number}: ".encode() in out, b"For example " in out), (0, True, True))
            self.assertEqual(json.loads(run("explain", number, "--json")[1])["refusal"], number)


class Tags(InARoom):
    def test_file_then_list(self):
        ja, schade = self.file("ja", JA), self.file("schade", SCHADE)
        self.assertEqual(run("explain-tag", schade, "WORDTAG", "ADJD")[:2], (0, b"Attributives Adjektiv\n"))
        status, out, error = run("explain-tag", ja, "WORDTAG", "ADJD")
        self.assertEqual((status, out, f"{ja}: WORDTAG ADJD: refusal 26" in error), (1, b"", True))
        self.assertEqual(json.loads(run("explain-tag", "--json", ja, "WORDTAG", "ADJD")[1]), {"refusal": 26})
        self.assertEqual(run("explain-tag", ja, "WORDTAG", "ADJD", "--list", schade)[:2], (0, b"Attributives Adjektiv\n"))
        told = json.loads(run("explain-tag", "--json", ja, "WORDTAG", "ADJD", "--list", schade)[1])
        self.assertEqual(told, {"table": "WORDTAG", "tag": "ADJD", "description": "Attributives Adjektiv"})

    def test_two_dashes_are_a_tag(self):
        ja, schade = self.file("ja", JA), self.file("schade", SCHADE)
        granted = (0, b"nicht zugeordnet\n")
        for words in (["--"], ["--", "--"]):
            self.assertEqual(run("explain-tag", schade, "WORDTAG", *words)[:2], granted, words)
            self.assertEqual(run("explain-tag", ja, "WORDTAG", *words, "--list", schade)[:2], granted, words)
            self.assertEqual(run("explain-tag", "--list", schade, ja, "WORDTAG", *words)[:2], granted, words)
            told = json.loads(run("explain-tag", ja, "WORDTAG", *words, f"--list={schade}", "--json")[1])
            self.assertEqual(told["tag"], "--")
        self.assertEqual(run("explain-tag", schade, "SECEDGETAG", "UNKNOWN")[:2], (0, b"\n"))

    def test_a_tag_may_look_like_an_option(self):
        rows = b"#BOT EDGETAG\n1 -LRB- bracket\n2 -x x\n#EOT EDGETAG\n"
        tags = self.file("tags", JA.replace(b"#BOS", rows + b"#BOS", 1))
        for words in (["-LRB-"], ["--", "-LRB-"]):
            self.assertEqual(run("explain-tag", tags, "EDGETAG", *words)[:2], (0, b"bracket\n"), words)
        self.assertEqual(run("explain-tag", tags, "EDGETAG", "-x", "--json")[0], 0)

    def test_a_tag_must_be_named(self):
        for words in ([], ["--json"], ["--list", HALF], ["NN", "NE"], ["--", "NN", "NE"]):
            self.assertEqual(run("explain-tag", UNTIDY, "WORDTAG", *words)[:2], (2, b""), words)

    def test_refused_files_are_named(self):
        ja = self.file("ja", JA)
        for words in ((HALF, "WORDTAG", "NN"), (ja, "WORDTAG", "NN", "--list", HALF)):
            status, _, error = run("explain-tag", *words)
            self.assertEqual((status, f"{HALF}: refusal 3" in error), (1, True))

    def test_standard_input_once(self):
        words = ("-", "WORDTAG", "ADJD", "--list")
        self.assertEqual(run("explain-tag", *words, self.file("schade", SCHADE), given=JA)[0], 0)
        for unreadable in ("-", self.room, self.room / "none"):
            self.assertEqual(run("explain-tag", *words, unreadable, given=JA)[:2], (2, b""))


class Rescues(InARoom):
    def test_every_cut(self):
        whole = UNTIDY.read_bytes()
        for cut in range(len(whole) + 1):
            corpus = Corpus(whole[:cut])
            accepted = corpus.survey().accepted
            status, out, _ = run("rescue", "-", given=whole[:cut])
            self.assertEqual(status, 0 if accepted else 1)
            self.assertEqual(out, whole[:cut] if accepted else whole[: corpus.survey().sound_end])

    def test_failed_output_leaves_the_old_one(self):
        output = self.file("kept", b"as it was")
        with mock.patch.object(os, "fsync", side_effect=OSError(28, "No space left on device")):
            status, _, error = run("rescue", HALF, "-o", output)
        self.assertEqual((status, "No space left" in error), (2, True))
        self.assertEqual((output.read_bytes(), os.listdir(self.room)), (b"as it was", ["kept"]))

    def test_new_file_then_rename(self):
        output = self.room / "kept"
        status, out, error = run("rescue", HALF, "-o", output)
        self.assertEqual((status, out, output.read_bytes()), (1, b"", HALF.read_bytes()[:116]))
        self.assertIn("kept: 1 sentence, 10 lines, 116 bytes", error)
        self.assertIn("lost: all from line 11 on, byte 116: 2 whole lines, 44 bytes", error)
        self.assertEqual(os.listdir(self.room), ["kept"])

    def test_nobody_knows_whether_a_file_is_whole(self):
        """Cut behind a sentence, or behind the tables, it is accepted, and nothing is promised of it."""
        whole = UNTIDY.read_bytes()
        ends = [whole.index(end) + len(end) for end in (b"#EOT ORIGIN\n", b"#EOS 2\n", b"#EOS 1\n")]
        for end, sentences in zip(ends, ("0 sentences", "1 sentence", "2 sentences")):
            status, out, error = run("rescue", "-", given=whole[:end])
            wanted = "whether more followed, no file can tell; compare it with the original"
            self.assertEqual((status, out), (0, whole[:end]))
            self.assertEqual(error, f"hraunlik: -: accepted as it stands: {sentences}; {wanted}\n")

    def test_nothing_sound(self):
        output = self.room / "kept"
        self.assertEqual(run("rescue", self.file("cut", JA[:100]), "-o", output)[0], 1)
        self.assertFalse(output.exists())

    def test_never_over_its_input(self):
        path = self.file("half", HALF.read_bytes())
        linked = self.room / "linked"
        linked.symlink_to(path)
        os.link(path, self.room / "same")
        for output in (path, linked, self.room / "same", self.room):
            for name in ("rescue", "tidy"):
                self.assertEqual(run(name, path, "-o", output)[0], 2)
        with path.open("rb") as file:
            self.assertEqual(started("rescue", "-", "-o", path, stdin=file).returncode, 2)
        self.assertEqual(path.read_bytes(), HALF.read_bytes())
        self.assertEqual(run("rescue", path, "-o", self.room / "none" / "out")[0], 2)


class Comparisons(InARoom):
    def told(self, old, new):
        status, out, _ = run("compare", "--json", self.file("old", old), self.file("new", new))
        told = json.loads(out)
        return status, told["same"], told["changed"], told["missing"], told["new"], told["tables"]

    def test_fates(self):
        other = JA.replace(b"OS 7", b"OS 9")
        self.assertEqual(self.told(JA, JA + b"%% later\n"), (0, [7], [], [], [], {}))
        self.assertEqual(self.told(JA, JA.replace(b"-- 500", b"SB 500")), (1, [], [7], [], [], {}))
        self.assertEqual(self.told(JA, other), (1, [], [], [7], [9], {}))
        self.assertEqual(self.told(JA, JA.replace(b"Kim", b"Kem")), (1, [7], [], [], [], {"EDITOR": "changed"}))
        self.assertEqual(self.told(JA, JA[:119])[3], [7])

    def test_each_file_is_surveyed_once(self):
        """And no tidy text is made, for which memory or, close to the limit, room may lack."""
        with mock.patch.object(library, "write", side_effect=AssertionError), mock.patch.object(
            library, "index", side_effect=library.index
        ) as surveys:
            self.assertEqual(self.told(JA, JA.replace(b"Ja ", b"Ja  ")), (0, [7], [], [], [], {}))
            self.assertEqual(self.told(JA, JA.replace(b"Ja ", b"Ne ")), (1, [], [7], [], [], {}))
        self.assertEqual(surveys.call_count, 4)

    def test_of_refused_files_the_sound_parts(self):
        rest = b"#BOS 8 2 0 1\nNe"
        self.assertEqual(self.told(JA + rest, JA + b"%%\n" + rest), (1, [7], [], [], [], {}))
        self.assertEqual(self.told(JA, JA.replace(b"Ja ", b"Ne ") + rest), (1, [], [7], [], [], {}))

    def test_order_of_origins_means_nothing(self):
        two, turned = (JA.replace(b"1 lab\n", rows) for rows in (b"1 lab\n3 x\n", b"3 x\n1 lab\n"))
        self.assertEqual(self.told(two, turned), (0, [7], [], [], [], {}))


class TidyTexts(InARoom):
    def test_file_a(self):
        wanted = JA.split(b"\n")
        for line in (2, 5, 8, 9):
            wanted[line] = wanted[line].replace(b" ", b"\t")
        self.assertEqual(run("tidy", self.file("ja", JA))[:2], (0, b"\n".join(wanted)))

    def test_refused(self):
        self.assertEqual(run("tidy", HALF)[:2], (1, b""))
