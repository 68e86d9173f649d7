"""Tests of the web page as a visitor uses it, in headless Chromium, by mouse, by keyboard and by touch.

    tools/web.sh && cd tools && python3 -m unittest test_page

They are skipped where the page isn't built, or where Chromium and its driver are missing.
"""
import re
import time
import unittest
from typing import Any, Callable, Dict, List, Tuple

import web_page
from browser import ELEMENT, PAGE, InBrowser
from test_web import texts_of

STORE_COMPUTES = web_page.Design("accumulator/store_computes.pipe", "accumulator/accumulator.spec", None)

# The contrast of each of these with what it stands on, as WCAG 2.1 defines it; of a line that of its number too.
CONTRAST = """
const parts = (colour) => colour.match(/[\\d.]+/g).map(Number);
const light = (colour) => parts(colour).slice(0, 3).map((part) => part / 255)
  .map((part) => (part <= 0.04045 ? part / 12.92 : ((part + 0.055) / 1.055) ** 2.4))
  .reduce((sum, part, at) => sum + part * [0.2126, 0.7152, 0.0722][at], 0);
const isSeen = (colour) => (parts(colour)[3] ?? 1) > 0;
const under = (one) => (!one || isSeen(getComputedStyle(one).backgroundColor)
  ? getComputedStyle(one ?? document.body).backgroundColor : under(one.parentElement));
const ratio = (ink, paper) => {
  const [dark, bright] = [light(ink), light(paper)].sort((a, b) => a - b);
  return (bright + 0.05) / (dark + 0.05);
};
const looks = ["body", ".comment", ".head", ".call", ".told .head", ".told .call", ".because", ".because.head",
  ".because.call", ".value", "#verdict", ".place", "#of-means", "#text", "#riddle p", "footer p"];
return [...looks.flatMap((look) => [...document.querySelectorAll(look)].map((one) =>
    [look, ratio(getComputedStyle(one).color, under(one))])),
  ...[...document.querySelectorAll(".line")].map((one) => {
    const { color, backgroundColor } = getComputedStyle(one, "::before");
    return [one.className + " number", ratio(color, backgroundColor)];
  })];
"""


class Clicks(InBrowser):
    """Waiting for what a click does."""

    def until(self, holds: Callable[[], bool], seconds: float = 60) -> None:
        end = time.monotonic() + seconds
        while not holds():
            self.assertLess(time.monotonic(), end, self.browser.text("main"))
            time.sleep(0.1)

    def wait(self, selector: str, wanted: str) -> None:
        self.until(lambda: re.match(wanted, self.browser.text(selector)) is not None)

    def setUp(self) -> None:
        self.browser.go(PAGE.as_uri())

    def works_by(self, source: str) -> None:
        """The next worker runs another script."""
        self.browser.script("window.rightSource ??= burchDill.runner.source;"
                            "burchDill.runner.source = URL.createObjectURL(new Blob([arguments[0]]));", source)

    def never_answers(self) -> None:
        self.works_by("onmessage = ({data}) => { while (data.words) {} }")

    def answers_again(self) -> None:
        self.browser.script("burchDill.runner.source = window.rightSource")


class Visit(Clicks):
    """What a visitor does."""

    def test_right_design(self) -> None:
        self.browser.choose("accumulator/accumulator.pipe")
        self.browser.click("#check")
        self.wait("#verdict", "correct$")

    def test_wrong_design(self) -> None:
        self.browser.choose("accumulator/store_computes.pipe")
        self.browser.click("#check")
        self.wait("#verdict", "wrong commute$")
        self.assertIn("after", self.browser.text("#text"))
        self.assertFalse(self.browser.script("return document.getElementById('diagram').hidden"))
        self.browser.click("#why")
        self.wait("#text", "(?s).*pipe:")
        self.assertIn("commute", self.browser.text("#text"))
        self.assertFalse(self.browser.script("return document.getElementById('diagram').hidden"))

    def test_why_of_a_value(self) -> None:
        self.browser.choose("accumulator/store_computes.pipe")
        self.browser.click("#check")
        self.wait("#verdict", "wrong commute$")
        case = self.browser.text("#case pre")
        for value in ("acc@before", "nowhere"):
            said = self.browser.run(["bd_view", "why", "pipe", "spec", "case", "--of", value],
                                    [*texts_of(STORE_COMPUTES), ("case", case)])
            self.browser.type("#of", value)
            self.browser.click("#why")
            self.until(lambda: self.browser.text("#text") == said.err + said.out)

    def test_diagram_is_shown_whole(self) -> None:
        self.browser.choose("accumulator/store_computes.pipe")
        self.browser.click("#check")
        self.wait("#verdict", "wrong commute$")
        room = "const page = document.getElementById('diagram').contentDocument.documentElement;" \
               "return page.clientHeight - page.scrollHeight"
        self.until(lambda: bool(self.browser.script(room) == 0))

    def test_case_of_a_correct_design(self) -> None:
        self.browser.choose("multiplier/multiplier.pipe")
        self.browser.click("#check")
        self.wait("#verdict", "correct$")
        self.assertEqual(self.browser.text("#case summary"), "a case that meets the invariant")

    def test_about(self) -> None:
        self.browser.choose("accumulator/accumulator.pipe")
        self.browser.click("#about")
        self.wait("#text", ".*\n")

    def test_fault_at_its_place(self) -> None:
        self.browser.type("#pipe textarea", "(pipeline\n (latch a bool)\n (next a b)\n (flush 0) (steps 1))")
        self.browser.type("#spec textarea", "(specification (latch a bool) (next a a))")
        self.browser.click("#check")
        self.wait("#pipe .says", "3:10: E08 unknown name: b\n.")
        self.assertEqual(self.browser.text("#pipe .faulty"), " (next a b)")
        self.assertEqual(self.browser.text("#pipe .fault"), "b")
        described = "const area = document.querySelector('#pipe textarea');" \
                    "return [area.getAttribute('aria-invalid'), document.getElementById(" \
                    "area.getAttribute('aria-describedby')).className]"
        self.assertEqual(self.browser.script(described), ["true", "says"])
        chosen = "const area = document.querySelector('#pipe textarea');" \
                 "return area.value.slice(area.selectionStart, area.selectionEnd)"
        self.assertEqual(self.browser.script(chosen), "b")

    def test_link(self) -> None:
        self.browser.type("#pipe textarea", "(pipeline) ; my own \u2192")
        self.browser.click("#link")
        self.wait("#note", "the link")
        self.browser.go(self.browser.script("return location.href"))
        time.sleep(0.5)
        value = self.browser.script("return document.querySelector('#pipe textarea').value")
        self.assertEqual(value, "(pipeline) ; my own \u2192")

    def test_print(self) -> None:
        self.browser.choose("accumulator/accumulator.pipe")
        self.browser.devtools("Emulation.setEmulatedMedia", media="print")
        shown = self.browser.script("""
            const lines = [...document.querySelectorAll("#spec .line")].slice(0, 2);
            return [...lines, ...document.querySelectorAll(".editor")].map((one) => one.checkVisibility());""")
        self.browser.devtools("Emulation.setEmulatedMedia", media="")
        self.assertEqual(shown, [True, True, True, True, False, False])

    def test_link_without_a_design(self) -> None:
        self.browser.go(PAGE.as_uri() + "#d=nothing")
        self.wait("#note", "the link holds no design$")


class Latest(Clicks):
    """What is shown is the answer to the latest question, about the text that stands there."""

    def shown(self) -> List[Any]:
        """The verdict, the texts, whether the diagram and the case are shown, and whether `why` can be asked."""
        return list(self.browser.script("""
            const at = (id) => document.getElementById(id);
            return [at("verdict").textContent, at("text").textContent, !at("diagram").hidden, !at("case").hidden,
                    !at("asks-why").hidden];"""))

    def nothing_is_shown(self) -> None:
        self.assertEqual(self.shown(), ["", "", False, False, False])

    def answers_late(self, out: str, seconds: float) -> None:
        """Each run answers so late, and can't be stopped."""
        self.browser.script("""
            const [out, seconds] = arguments;
            burchDill.runner.stop = () => {};
            burchDill.runner.run = () => new Promise((resolve) => {
              setTimeout(() => resolve({status: 0, out, err: "", files: {}}), 1000 * seconds);
            });""", out, seconds)

    def check_wrong(self) -> None:
        self.browser.choose("accumulator/store_computes.pipe")
        self.browser.click("#check")
        self.wait("#verdict", "wrong commute$")

    def test_another_design_while_asked(self) -> None:
        self.answers_late("correct\n", 1)
        self.browser.choose("accumulator/accumulator.pipe")
        self.browser.click("#check")
        self.wait("#note", "running")
        self.browser.choose("accumulator/store_computes.pipe")
        self.assertEqual(self.browser.text("#note"), "")
        time.sleep(1.5)
        self.nothing_is_shown()

    def test_edit_while_asked(self) -> None:
        self.answers_late("wrong commute\n(case 1)\n", 1)
        self.browser.click("#check")
        self.wait("#note", "running")
        self.browser.type("#spec textarea", "(specification)")
        time.sleep(1.5)
        self.nothing_is_shown()

    def test_asked_again_while_asked(self) -> None:
        self.answers_late("correct\n", 1.5)
        self.browser.click("#check")
        self.answers_late("undecided 1\n", 0.5)
        self.browser.click("#check")
        self.wait("#verdict", "undecided 1$")
        time.sleep(1.5)
        self.assertEqual(self.browser.text("#verdict"), "undecided 1")

    def test_edit_ends_the_run(self) -> None:
        self.never_answers()
        self.browser.click("#check")
        self.until(lambda: bool(self.browser.script("return burchDill.runner.worker !== null")))
        self.browser.type("#inv textarea", ";")
        self.assertEqual(self.browser.script("return [burchDill.runner.worker, burchDill.runner.waiting.size]"), [None, 0])
        self.nothing_is_shown()

    def test_edit_after_correct(self) -> None:
        self.browser.choose("accumulator/accumulator.pipe")
        self.browser.click("#check")
        self.wait("#verdict", "correct$")
        self.browser.type("#pipe textarea", "(pipeline)")
        self.nothing_is_shown()
        self.assertEqual(self.browser.script("return document.getElementById('verdict').className"), "")

    def test_edit_after_wrong(self) -> None:
        """What was shown stays readable, closed and under another title."""
        self.check_wrong()
        text = self.browser.text("#text")
        self.browser.type("#inv textarea", "; a change")
        self.nothing_is_shown()
        self.assertEqual(self.browser.text("#earlier summary"), "before the change: wrong commute")
        self.assertEqual(self.browser.text("#earlier pre"), text)
        self.assertFalse(self.browser.script("return document.getElementById('earlier').open"))
        self.browser.choose("accumulator/accumulator.pipe")
        self.assertTrue(self.browser.script("return document.getElementById('earlier').hidden"))

    def test_another_design_after_wrong(self) -> None:
        self.check_wrong()
        self.browser.choose("accumulator/accumulator.pipe")
        self.nothing_is_shown()

    def test_stop(self) -> None:
        self.never_answers()
        self.browser.click("#check")
        self.wait("#note", "running")
        self.browser.click("#stop")
        self.wait("#note", "stopped$")
        self.nothing_is_shown()
        self.assertEqual(self.browser.script("return burchDill.runner.worker"), None)
        self.answers_again()
        self.browser.click("#check")
        self.wait("#verdict", "correct$")

    def test_stop_of_why_leaves_the_case(self) -> None:
        self.check_wrong()
        shown = self.shown()
        self.never_answers()
        self.browser.script("burchDill.runner.worker.terminate(); burchDill.runner.worker = null;")
        self.browser.click("#why")
        self.wait("#note", "running")
        self.browser.click("#stop")
        self.wait("#note", "stopped$")
        self.assertEqual(self.shown(), shown)
        self.answers_again()
        self.browser.click("#why")
        self.until(lambda: bool(self.browser.script("return document.querySelector('.told') !== null")))

    def test_late_answer_after_stop(self) -> None:
        self.answers_late("correct\n", 1)
        self.browser.click("#check")
        self.browser.click("#stop")
        time.sleep(1.5)
        self.nothing_is_shown()
        self.assertEqual(self.browser.text("#note"), "stopped")

    def fails_once(self, source: str, wanted: str) -> None:
        """A worker of another source says that it failed, and the next one answers."""
        self.works_by(source)
        self.browser.click("#check")
        self.wait("#note", wanted)
        self.nothing_is_shown()
        self.assertTrue(self.browser.script("return document.getElementById('stop').disabled"))
        self.answers_again()
        self.browser.click("#check")
        self.wait("#verdict", "correct$")

    def test_worker_that_does_not_begin(self) -> None:
        self.fails_once("throw new Error('gone')", "no answer: .*gone$")

    def test_worker_that_dies(self) -> None:
        self.fails_once("onmessage = () => setTimeout(() => { throw new Error('died'); })", "no answer: .*died$")

    def test_worker_of_what_is_no_script(self) -> None:
        self.fails_once("(", "no answer: .*SyntaxError")

    def test_run_that_breaks_off(self) -> None:
        self.browser.script("burchDill.runner.module = WebAssembly.compile(new Uint8Array([0, 97, 115, 109, 1, 0, 0, 0]));")
        self.browser.click("#check")
        self.wait("#note", "no answer: the run broke off: ")
        self.nothing_is_shown()


class Learning(Clicks):
    """The texts, what is told of their lines, a start, and the riddles."""

    def write(self, file: str, text: str) -> None:
        self.browser.script("const area = document.querySelector(arguments[0] + ' textarea');"
                            "area.focus(); area.value = arguments[1]; area.dispatchEvent(new Event('input'));",
                            f"#{file}", text)

    def cursor(self, file: str, place: int) -> None:
        self.browser.script("const area = document.querySelector(arguments[0] + ' textarea');"
                            "area.focus(); area.setSelectionRange(arguments[1], arguments[1]);", f"#{file}", place)

    def texts(self, selector: str) -> List[str]:
        return list(self.browser.script("return [...document.querySelectorAll(arguments[0])].map((one) => "
                                        "one.textContent)", selector))

    def check_wrong(self, name: str) -> None:
        self.browser.choose(name)
        self.browser.click("#check")
        self.wait("#verdict", "wrong commute$")

    def test_looks(self) -> None:
        self.write("pipe", "(pipeline ; (a comment\n (next a (alu b)))")
        self.assertEqual(self.texts("#pipe .comment"), ["; (a comment"])
        self.assertEqual(self.texts("#pipe .head"), ["pipeline", "next"])
        self.assertEqual(self.texts("#pipe .call"), ["alu"])
        self.assertEqual(self.texts("#pipe .line"), ["(pipeline ; (a comment", " (next a (alu b)))"])

    def test_only_changed_lines_are_made_anew(self) -> None:
        self.write("spec", "one\ntwo\n(three)\ntwo\nfive\n")
        self.browser.script("window.before = [...document.querySelectorAll('#spec .line')]")
        self.write("spec", "one\ntwo\n(three 3)\nand\ntwo\nfive\n")
        same = "return [...document.querySelectorAll('#spec .line')].map((line) => before.indexOf(line))"
        self.assertEqual(self.browser.script(same)[:-1], [0, 1, -1, -1, 3, 4])
        self.assertEqual(self.texts("#spec .line"), ["one", "two", "(three 3)", "and", "two", "five", ""])

    def test_parentheses(self) -> None:
        self.write("pipe", "(a ; )\n (b))\n)")
        for place, look, lines in ((0, "match", [0, 1]), (12, "match", [0, 1]), (5, "match", []), (13, "unmatched", [2])):
            self.cursor("pipe", place)
            marked = "return [...document.querySelectorAll('#pipe .line')].flatMap((line, at) => " \
                     "[...line.querySelectorAll('.' + arguments[0])].map(() => at))"
            self.until(lambda: bool(self.browser.script(marked, look) == lines))

    def test_what_is_told_stands_beside_the_lines(self) -> None:
        self.check_wrong("accumulator/store_computes.pipe")
        self.assertEqual(self.texts(".told"), [])
        self.browser.click("#why")
        self.until(lambda: self.texts(".place") != [])
        told = {place.rsplit(":", 1)[0] for place in self.texts(".place")}
        marked = self.browser.script("return [...document.querySelectorAll('.told')].map((line) => "
                                     "`${line.closest('.editor').id}:${[...line.parentNode.children].indexOf(line) + 1}`)")
        self.assertEqual(set(marked), told)
        self.assertTrue(all("=" in value for value in self.texts(".value")))
        lines = self.browser.text("#text").splitlines()
        carets = [(above, line) for above, line in zip(lines, lines[1:]) if re.fullmatch(r" *\^+", line)]
        because = {above[line.index("^"):len(line)] for above, line in carets}
        drawn = "".join(self.texts(".because"))
        self.assertTrue(because)
        self.assertEqual(len(drawn), sum(map(len, because)))
        self.assertTrue(all(part in drawn for part in because), (because, drawn))
        self.write("inv", ";")
        self.assertEqual(self.texts(".told"), [])

    def test_place_leads_to_its_line(self) -> None:
        self.check_wrong("accumulator/store_computes.pipe")
        self.browser.click("#why")
        self.until(lambda: self.texts(".place") != [])
        self.browser.click(".place")
        file, line, column = self.texts(".place")[0].split(":")
        place = self.browser.script("const area = document.activeElement;"
                                    "return [area.closest('.editor').id, area.value.slice(0, area.selectionStart)]")
        self.assertEqual([place[0], place[1].count("\n") + 1, len(place[1].split("\n")[-1]) + 1],
                         [file, int(line), int(column)])

    def test_painted_text_scrolls_with_its_text_area(self) -> None:
        self.browser.choose("dlx/dlx.pipe")
        places = self.browser.script("""
            const [area, layer] = ["textarea", ".paint"].map((one) => document.querySelector("#pipe " + one));
            area.scrollTo(1e6, 1e6);
            area.dispatchEvent(new Event("scroll"));
            return [area.scrollTop - layer.scrollTop, area.scrollLeft - layer.scrollLeft, area.scrollTop];""")
        self.assertEqual(places[:2], [0, 0])
        self.assertGreater(places[2], 0)

    def test_painted_text_lies_under_its_text_area(self) -> None:
        self.write("pipe", "(pipeline\n (next a b))")
        places = self.browser.script("""
            const area = document.querySelector("#pipe textarea");
            const line = document.createRange();
            line.selectNodeContents(document.querySelector("#pipe .line"));
            const { left, top } = line.getBoundingClientRect();
            const box = area.getBoundingClientRect();
            const { paddingLeft, paddingTop, lineHeight, fontSize, fontFamily } = getComputedStyle(area);
            const painted = getComputedStyle(document.querySelector("#pipe .line"));
            const leading = (parseFloat(lineHeight) - line.getBoundingClientRect().height) / 2;
            return [Math.abs(box.left + parseFloat(paddingLeft) - left), Math.abs(box.top + parseFloat(paddingTop) + leading - top),
              painted.lineHeight === lineHeight && painted.fontSize === fontSize && painted.fontFamily === fontFamily];""")
        self.assertLess(places[0], 0.5)
        self.assertLess(places[1], 1)
        self.assertTrue(places[2])

    def bounded(self, cycles: int) -> None:
        self.browser.type("#cycles", str(cycles))
        self.browser.click("#bounded")

    def test_bounded(self) -> None:
        self.browser.choose("riddles/riddle_05.pipe")
        self.bounded(1)
        self.wait("#verdict", "correct to 1$")
        self.bounded(2)
        self.wait("#verdict", "wrong commute 2$")
        self.assertIn("cycle 2", self.browser.text("#text"))
        self.assertIn("(trail 2", self.browser.text("#case pre"))
        self.assertTrue(self.browser.script("return document.getElementById('asks-why').hidden"))

    def test_fault_of_a_start(self) -> None:
        self.browser.choose("accumulator/accumulator.pipe")
        self.bounded(1)
        self.wait("#start .says", "1:1: write where runs begin")
        self.write("start", "(start nowhere)")
        self.browser.click("#bounded")
        self.wait("#start .says", "1:8: E08 unknown name")

    def test_cycles_out_of_range(self) -> None:
        self.browser.choose("riddles/riddle_05.pipe")
        self.bounded(17)
        self.assertEqual(self.browser.text("#note"), "")
        self.assertEqual(self.browser.script("return document.activeElement.id"), "cycles")

    def test_diverse(self) -> None:
        self.browser.script("""
            const run = burchDill.runner.run.bind(burchDill.runner);
            burchDill.runner.run = (words, files) => { window.words = words; return run(words, files); };""")
        self.browser.click("#diverse")
        self.browser.click("#check")
        self.wait("#verdict", "correct$")
        self.assertEqual(self.browser.script("return words"), ["burch_dill", "check", "pipe", "spec", "--diverse"])

    def test_link_with_a_start(self) -> None:
        self.browser.choose("riddles/riddle_01.pipe")
        self.browser.click("#link")
        self.wait("#note", "the link")
        self.browser.go(self.browser.script("return location.href"))
        start = "return document.querySelector('#start textarea').value"
        self.until(lambda: bool(self.browser.script(start) == "(start (not v))\n"))

    def take_riddle(self, number: int) -> Tuple[Dict[str, Any], List[str]]:
        name = f"riddles/riddle_{number:02}.pipe"
        self.browser.choose(name)
        riddle = web_page.riddles()[name]
        assert isinstance(riddle, dict)
        return riddle, (web_page.GALLERY / name).read_text().splitlines(keepends=True)

    def name_line(self, lines: List[str], line: int) -> None:
        self.cursor("pipe", len("".join(lines[:line - 1])))
        self.wait("#name-line", f"line {line} is wrong")
        self.browser.click("#name-line")

    def test_riddle(self) -> None:
        riddle, lines = self.take_riddle(1)
        self.name_line(lines, riddle["line"] - 1)
        self.wait("#riddle-says", "No\\.")
        self.browser.click("#no-harm")
        self.wait("#riddle-says", "No\\.")
        self.name_line(lines, riddle["line"])
        self.wait("#riddle-says", "Yes\\.")
        self.write("pipe", "".join([*lines[:riddle["line"] - 1], riddle["right"] + "\n", *lines[riddle["line"]:]]))
        self.assertTrue(self.browser.script("return document.getElementById('name-line').disabled"))
        self.browser.click("#check")
        self.wait("#riddle-says", "Solved: the line is as in the right machine")

    def test_riddle_with_nothing_wrong(self) -> None:
        riddle, lines = self.take_riddle(6)
        self.assertTrue(riddle["harmless"])
        self.name_line(lines, riddle["line"])
        self.wait("#riddle-says", f"Line {riddle['line']} was changed. But is it wrong")
        self.browser.click("#no-harm")
        self.wait("#riddle-says", "Yes\\.")

    def test_no_riddle(self) -> None:
        self.take_riddle(1)
        self.browser.choose("accumulator/accumulator.pipe")
        self.assertTrue(self.browser.script("return document.getElementById('riddle').hidden"))


class Access(Clicks):
    """The page by keyboard alone, by touch on a narrow screen, by its names, and by its contrast."""

    def focused(self) -> str:
        return str(self.browser.script("const one = document.activeElement;"
                                       "return one.id || one.closest('section')?.id || one.tagName"))

    def tab_to(self, wanted: str) -> List[str]:
        """Goes on by Tab to an element, and tells what it passes."""
        passed: List[str] = []
        while not passed or passed[-1] != wanted:
            self.assertLess(len(passed), 30, passed)
            self.browser.press("Tab")
            passed.append(self.focused())
        return passed

    def test_keyboard_alone(self) -> None:
        self.assertEqual(self.tab_to("design"), ["design"])
        self.browser.press("Down")
        self.assertEqual(self.browser.script("return document.getElementById('design').value"),
                         "accumulator/operand_before_store.pipe")
        self.tab_to("check")
        self.browser.press("Enter")
        self.wait("#verdict", "wrong commute$")
        self.assertEqual(self.tab_to("of"), ["diverse", "bounded", "cycles", "about", "link", "pipe", "spec", "inv",
                                             "start", "of"])
        self.browser.press(*"acc@before", "Enter")
        self.wait("#text", r"(?s).*acc@before=")
        self.tab_to("why")
        self.browser.press("Shift+Tab")
        self.browser.press(*["Backspace"] * 10, "Enter")
        self.until(lambda: bool(self.browser.script("return document.querySelector('.place') !== null")))
        self.tab_to("why")
        self.browser.press("Tab", "Tab", "Enter")
        self.assertEqual(self.browser.script("return document.activeElement.tagName"), "TEXTAREA")
        self.browser.press("Control+Enter")
        self.wait("#verdict", "wrong commute$")

    def test_stop_by_keyboard(self) -> None:
        self.never_answers()
        self.tab_to("check")
        self.browser.press("Enter")
        self.wait("#note", "running")
        self.tab_to("stop")
        self.browser.press("Enter")
        self.wait("#note", "stopped$")

    def test_names(self) -> None:
        controls = self.browser.script("return [...document.querySelectorAll("
                                       "'button, input, select, textarea, iframe')]")
        self.assertGreater(len(controls), 15)
        hidden = "return arguments[0].checkVisibility()"
        for control in controls:
            if self.browser.script(hidden, control):
                said = self.browser.script("return arguments[0].outerHTML.slice(0, 80)", control)
                self.assertNotEqual(self.browser.name(control[ELEMENT]), "", said)
        live = self.browser.script("return ['note', 'verdict', 'riddle-says'].map((id) => "
                                   "document.getElementById(id).closest('[aria-live=polite]') !== null)")
        self.assertEqual(live, [True, True, True])

    def narrow(self) -> None:
        self.browser.devtools("Emulation.setDeviceMetricsOverride", width=390, height=844, deviceScaleFactor=2,
                              mobile=True)
        self.browser.devtools("Emulation.setTouchEmulationEnabled", enabled=True)
        self.addCleanup(self.browser.devtools, "Emulation.clearDeviceMetricsOverride")
        self.addCleanup(self.browser.devtools, "Emulation.setTouchEmulationEnabled", enabled=False)

    def test_narrow_screen_by_touch(self) -> None:
        self.narrow()
        self.browser.choose("riddles/riddle_01.pipe")
        width = "return document.documentElement.scrollWidth"
        self.assertEqual(self.browser.script(width), 390)
        self.browser.tap("#check")
        self.wait("#verdict", "wrong commute$")
        seen = "const {top, bottom} = document.getElementById('verdict').getBoundingClientRect();" \
               "return top >= 0 && bottom <= innerHeight"
        self.assertTrue(self.browser.script(seen))
        self.browser.tap("#why")
        self.until(lambda: bool(self.browser.script("return document.querySelector('.told') !== null")))
        self.browser.tap(".place")
        self.assertEqual(self.browser.script("return document.activeElement.tagName"), "TEXTAREA")
        self.browser.tap("#no-harm")
        self.wait("#riddle-says", "No\\.")
        self.assertEqual(self.browser.script(width), 390)
        small = "return [...document.querySelectorAll('button, select, input[type=number]')].filter((one) => " \
                "one.checkVisibility() && one.className !== 'place' && one.offsetHeight < 44).map((one) => one.id)"
        self.assertEqual(self.browser.script(small), [])

    def test_wide_screen_has_the_answer_beside_the_text(self) -> None:
        self.browser.devtools("Emulation.setDeviceMetricsOverride", width=1280, height=900, deviceScaleFactor=1,
                              mobile=False)
        self.addCleanup(self.browser.devtools, "Emulation.clearDeviceMetricsOverride")
        sides = self.browser.script("return ['texts', 'answer'].map((id) => {"
                                    "const {left, right, top} = document.getElementById(id).getBoundingClientRect();"
                                    "return [left, right, top]; })")
        self.assertLess(sides[0][1], sides[1][0])
        self.assertEqual(sides[0][2], sides[1][2])

    def test_contrast(self) -> None:
        """Each colour has the contrast with its ground that WCAG 2.1 asks of text, 4.5 to 1, by day and night."""
        self.browser.choose("riddles/riddle_01.pipe")
        self.browser.click("#check")
        self.wait("#verdict", "wrong commute$")
        self.browser.click("#why")
        self.until(lambda: bool(self.browser.script("return document.querySelector('.told') !== null")))
        self.addCleanup(self.browser.devtools, "Emulation.setEmulatedMedia", features=[])
        for scheme in ("light", "dark"):
            self.browser.devtools("Emulation.setEmulatedMedia",
                                  features=[{"name": "prefers-color-scheme", "value": scheme}])
            for selector, ratio in self.browser.script(CONTRAST):
                self.assertGreaterEqual(ratio, 4.5, (scheme, selector))


if __name__ == "__main__":
    unittest.main()
