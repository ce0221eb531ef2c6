"""Tests of timeline.py."""

from helpers import EXAMPLES, Case

WAIT = """rows 0
labels 6
  session 1 begin 1
  session 2 begin 1
  session 2 put row 4 X
  session 1 wait row 4 X for 2
  session 2 commit 1
  session 1 take row 4 X
"""


class Timeline(Case):
    """The structure of timelines."""

    def test_deadlock(self):
        drawn = self.picture("timeline.py", EXAMPLES / "deadlock.labels", EXAMPLES / "deadlock.script")
        labels = drawn.marked("label")
        self.assertEqual([it.get("data-label") for it in labels], [str(at) for at in range(1, 29)])
        self.assertEqual(len(drawn.marked("bar")), 3)
        self.assertEqual([len(drawn.marked(kind)) for kind in ("waiting", "for", "crossed")], [3, 3, 2])
        self.assertEqual(len(drawn.group("lanes")), 4)
        self.assertEqual(sum("victim" in (it.get("class")) for it in drawn.group("bars")), 1)
        titles = drawn.titles("marks")
        self.assertEqual(titles[12], "13: session 1 wait row 3 X for 2")
        self.assertEqual(titles[1], "2: session 1 ask 1: update 1 POINT (0 1)")
        self.assertIn("cycle 1 2", drawn.words())
        self.assertTrue({"1", "2"} <= set(drawn.words()))

    def test_marks_go_down_in_their_lanes(self):
        drawn = self.picture("timeline.py", self.file("a.report", WAIT))
        marks = drawn.marked("mark")
        self.assertEqual(len(marks), 6)
        wait = next(it for it in drawn.marked("waiting"))
        self.assertEqual(float(wait.get("y2")) - float(wait.get("y1")), 40)
        arrow = drawn.marked("for")[0]
        self.assertGreater(float(arrow.get("x2")), float(arrow.get("x1")))
        self.assertEqual(arrow.get("marker-end"), "url(#head)")
        self.assertEqual(arrow.get("y1"), wait.get("y1"))
        told = drawn.titles("bars")
        self.assertEqual(sorted(told), ["session 1 transaction 1: not ended", "session 2 transaction 1: committed"])

    def test_texts_stay_apart(self):
        drawn = self.picture("timeline.py", EXAMPLES / "phantom.labels")
        heights = [float(it.get("y")) for it in drawn.root.iter() if it.get("class") == "count"]
        self.assertEqual(len(heights), 21)
        self.assertTrue(all(after - before >= 14 for before, after in zip(heights, heights[1:])))
        self.assertLess(heights[-1], drawn.size()[1])

    def test_a_part(self):
        drawn = self.picture("timeline.py", EXAMPLES / "deadlock.labels", "--labels", 14, 17)
        self.assertEqual([it.get("data-label") for it in drawn.marked("label")], ["14", "15", "16", "17"])
        self.assertEqual(len(drawn.marked("waiting")), 2)
        self.assertEqual(len(drawn.marked("for")), 1)

    def test_threads(self):
        script = EXAMPLES / "three_sessions.script"
        text = self.replayed(script.read_text(), "--labels", "--trace", command="threads")
        drawn = self.picture("timeline.py", self.file("a.report", text), script)
        self.assertEqual(len(drawn.marked("label")), len(text.rstrip().split("\n")[-1].split()) - 1)
        self.assertEqual(len(drawn.marked("bar")), 10)

    def test_many_labels(self):
        script = "".join(f"session {s}\nbegin\n" + "insert 1 POINT (0 0)\n" * 20 + "commit\n" for s in range(1, 11))
        report = self.file("a.report", self.replayed(script, "--labels"))
        drawn = self.picture("timeline.py", report)
        self.assertGreater(len(drawn.marked("label")), 400)
        self.assertNotIn("session 1 begin 1", drawn.words())
        self.assertEqual(drawn.titles("marks")[0], "1: session 1 begin 1")

    def test_a_printed_schedule_may_follow(self):
        drawn = self.picture("timeline.py", self.file("a.report", WAIT + "schedule 1 2 2 1 2 1\n"))
        self.assertEqual(len(drawn.marked("label")), 6)

    def test_refused(self):
        for text, told in (
            (WAIT.replace("wait row 4 X for 2", "wait row 4 X"), "a.report:6: 'row 4 X' names no lock"),
            (WAIT.replace("put row 4 X", "puts row 4 X"), "a.report:5: a label must stand here"),
            (WAIT.replace("labels 6", "labels 7"), "a.report:9: the text ends"),
            (WAIT.replace("labels 6", "labels 5"), "a.report:8: nothing may stand behind a report"),
            (WAIT.replace("for 2", "for 3"), "no label is session 3's"),
            ("rows 0\n", "the report has no labels"),
        ):
            self.refused(told, "timeline.py", self.file("a.report", text))
        report = self.file("a.report", WAIT.replace("put row 4 X", "ask 1"))
        self.refused("has no such statement", "timeline.py", report, EXAMPLES / "first.script")
        self.refused("none from 29", "timeline.py", EXAMPLES / "deadlock.labels", "--labels", 29, 30)

    def test_words(self):
        labels = EXAMPLES / "deadlock.labels"
        self.misused("timeline.py")
        self.misused("timeline.py", labels, labels)
        self.misused("timeline.py", EXAMPLES / "deadlock.script")
        self.misused("timeline.py", labels, "--labels", 3, 2)
