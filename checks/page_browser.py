"""The browser's part of checks/page: headless Chromium, driven by Selenium through a lesson with the page.

It takes five pictures of what is seen; with --write they stand in docs/pictures after it. What is to be seen was worked out by hand.
"""
import base64
import contextlib
import os
import pathlib
import shutil
import sys
import tempfile
import time
import unittest
from typing import Any, Callable, Dict, List, Optional
from unittest import mock

from selenium import webdriver  # type: ignore[import]
from selenium.webdriver.chrome.service import Service  # type: ignore[import]
from selenium.webdriver.common.action_chains import ActionChains  # type: ignore[import]
from selenium.webdriver.common.by import By  # type: ignore[import]
from selenium.webdriver.common.keys import Keys  # type: ignore[import]
from selenium.webdriver.support.select import Select  # type: ignore[import]
from selenium.webdriver.support.wait import WebDriverWait  # type: ignore[import]

page: Any = sys.modules["__main__"]  # checks/page, which has the server and its stand-ins

HOME = pathlib.Path(__file__).resolve().parent.parent
WAIT = 150  # seconds; the longest wait for anything
# In the page: all visible texts whose contrast with what is behind them is below that of the guidelines.
FAINT = """
const linear = (c) => (c <= 0.04045 ? c / 12.92 : ((c + 0.055) / 1.055) ** 2.4);
const parts = (text) => (text.match(/[\\d.]+/g) || []).map(Number);
const light = ([r, g, b]) => 0.2126 * linear(r / 255) + 0.7152 * linear(g / 255) + 0.0722 * linear(b / 255);
const behind = (element) => {
  for (let one = element; one; one = one.parentElement) {
    const found = parts(getComputedStyle(one).backgroundColor);
    if (found.length === 3 || found[3] === 1) return found;
    if (found[3] > 0) return [255, 255, 255];
  }
  return [255, 255, 255];
};
const faint = [];
const walker = document.createTreeWalker(document.body, NodeFilter.SHOW_TEXT);
while (walker.nextNode()) {
  const element = walker.currentNode.parentElement;
  const text = walker.currentNode.data.trim();
  if (!text || !element.checkVisibility() || element.closest("svg, script, style, noscript, .skip, select")) continue;
  const [one, other] = [light(parts(getComputedStyle(element).color)), light(behind(element))].sort((a, b) => b - a);
  if ((one + 0.05) / (other + 0.05) < 4.5) faint.push(`${element.tagName}.${element.className}: ${text.slice(0, 40)}`);
}
return faint;
"""
# In the page: what has the focus, by the names that it goes by; and whether that is to be seen.
FOCUSED = """
const one = document.activeElement;
const shown = one.closest(".CodeMirror") || one;
const style = getComputedStyle(shown);
return [[one.getAttribute("aria-label"), one.textContent, one.id, shown === one ? null : "the text"],
        one === document.body || (style.outlineStyle !== "none" && parseFloat(style.outlineWidth) >= 2 && shown.checkVisibility())];
"""
# In the page: how far anything stands out of the window, to the right.
WIDER = "return document.documentElement.scrollWidth - document.documentElement.clientWidth"
# A description whose search takes longer than anyone waits: the sum of two accounts stays.
LONG = """:- sorts number.
:- objects 0..100 :: number.
:- variables M, N, K :: number.
:- constants a, b :: inertialFluent(number); pay :: exogenousAction; much :: attribute(number) of pay.
pay causes a=N-K if much=K & a=N.
pay causes b=M+K if much=K & b=M.
nonexecutable pay if much>a.
nonexecutable pay if b+much>100.
:- query label :: sum; maxstep :: 3; 0: a+b=100; claim :: maxstep: a+b=100.
"""
MANY = ":- constants " + ", ".join(f"p{number}" for number in range(17)) + " :: simpleFluent.\n:- query label :: all; maxstep :: 0.\n"
# Nothing is done in its one history, so `to` has no value there.
REST = """:- sorts place.
:- objects home, office :: place.
:- variables P :: place.
:- constants at :: inertialFluent(place); go :: exogenousAction; to :: attribute(place) of go.
go causes at=P if to=P.
:- query label :: rest; maxstep :: 1; 0: at=home & -go.
"""


def made_driver(profile: str) -> Any:
    options = webdriver.ChromeOptions()
    words = ["--headless=new", "--disable-gpu", "--disable-dev-shm-usage", "--hide-scrollbars", "--window-size=1280,1000", "--lang=en",
             f"--user-data-dir={profile}", "--host-resolver-rules=MAP * ~NOTFOUND , EXCLUDE 127.0.0.1", "--no-first-run"]
    for word in words + (["--no-sandbox"] if os.geteuid() == 0 else []):
        options.add_argument(word)
    options.binary_location = shutil.which("chromium") or ""
    options.set_capability("unhandledPromptBehavior", "accept")  # that a text is not saved
    options.set_capability("goog:loggingPrefs", {"browser": "ALL"})
    return webdriver.Chrome(service=Service(shutil.which("chromedriver") or ""), options=options)


class Browser(unittest.TestCase):
    """A browser over a copy of some examples, and over a stand-in for the program that does what is hard to come by."""

    driver: Any
    made: "tempfile.TemporaryDirectory[str]"
    served: Any
    strangely: Any

    @classmethod
    def setUpClass(cls) -> None:
        cls.made = tempfile.TemporaryDirectory()
        root = pathlib.Path(cls.made.name)
        for name in ("lamp.cc", "lights.cc", "lights-mended.cc", "toss.cc", "airlock.cc", "lift.cc"):
            shutil.copy(HOME / "examples" / name, root)
        (root / "<b onclick=x>.cc").write_text(page.LAMP)
        (root / "mine.cc").write_text(page.LAMP)
        (root / "laws.cc").write_text(page.LAMP)
        (root / "asked.cc").write_text("% The laws stand in another file.\n:- include 'laws.cc'.\n")
        (root / "large.cc").write_text(page.LAMP + ("% " + "x" * 100 + "\n") * 50000)
        strange = root / "strange"
        strange.write_text(page.STRANGE.format(python=sys.executable))
        strange.chmod(0o755)
        cls.served = page.Served(root, pathlib.Path(os.environ["CCALC_PROGRAM"]), page.Limits())
        cls.strangely = page.Served(root, strange, page.Limits(seconds=600))
        cls.driver = made_driver(str(root / ".profile"))

    @classmethod
    def tearDownClass(cls) -> None:
        cls.driver.quit()
        cls.served.close()
        cls.strangely.close()
        shutil.rmtree(cls.made.name, ignore_errors=True)
        cls.made.cleanup()

    # What a reader does and sees

    def wait(self, is_so: Callable[[], Any], what: str) -> Any:
        return WebDriverWait(self.driver, WAIT, 0.1, ignored_exceptions=(Exception,)).until(lambda _: is_so(), what)

    def there(self, selector: str) -> List[Any]:
        found: List[Any] = self.driver.find_elements(By.CSS_SELECTOR, selector)
        return found

    def text(self, selector: str) -> str:
        return " ".join(" ".join(one.text.split()) for one in self.there(selector))

    def sees(self, selector: str, words: str) -> None:
        self.wait(lambda: words in self.text(selector), f"{words} in {selector}")

    def click(self, words: str, within: str = "body") -> None:
        """Clicks the button with these words, or with this spoken name."""
        path = f".//button[normalize-space()='{words}' or @aria-label='{words}']"

        def done() -> bool:
            for one in self.there(within)[0].find_elements(By.XPATH, path):
                if one.is_displayed() and one.is_enabled():
                    one.click()
                    return True
            return False

        self.wait(done, words)  # once more where the button was made anew meanwhile

    def tap(self, selector: str, place: int = 0) -> None:
        def done() -> bool:
            self.there(selector)[place].click()
            return True

        self.wait(done, selector)

    def visit(self, served: Optional[Any] = None) -> None:
        served = served or self.served
        self.driver.get("about:blank")
        self.driver.set_window_size(1280, 1000)
        self.driver.get(f"http://127.0.0.1:{served.port}/{served.token}/")
        self.wait(lambda: self.there("#file option"), "the files")

    def open(self, name: str, served: Optional[Any] = None) -> None:
        self.visit(served)
        Select(self.there("#file")[0]).select_by_value(name)
        self.wait(lambda: self.driver.title == f"{name} - CCalc", name)

    def write(self, text: str) -> None:
        """Puts a text into the editor, as one would paste it."""
        self.driver.execute_script("document.querySelector('.CodeMirror').CodeMirror.setValue(arguments[0])", text)

    def ask(self, name: str, label: str, words: str) -> None:
        """Opens a description, asks a query, and waits for these words of the verdict."""
        self.open(name)
        self.click(f"Ask: {label}")
        self.sees("#verdict", words)

    def width_of(self, selector: str) -> float:
        return float(self.driver.execute_script("return document.querySelector(arguments[0]).getBoundingClientRect().width", selector))

    def hands(self) -> Any:
        """The mouse and the keys."""
        made: Any = ActionChains
        return made(self.driver)

    def press(self, *keys: str) -> None:
        self.hands().send_keys(*keys).perform()

    def reach(self, words: str, key: str = Keys.TAB) -> None:
        """Presses Tab until what has these words has the focus; on the way the focus is to be seen everywhere."""
        seen = []
        for _ in range(90):
            self.press(key)
            names, is_shown = self.driver.execute_script(FOCUSED)
            self.assertTrue(is_shown, names)
            seen.append(names)
            if words in names:
                return
        self.fail(f"{words} is not reached: {seen}")

    def picture(self, name: str, width: int = 1280) -> None:
        """Takes a picture of all that the page shows, with the mouse out of the way."""
        self.driver.set_window_size(width, 700)
        self.hands().move_to_element(self.there("header h1")[0]).perform()
        self.driver.execute_script("window.scrollTo(0, 0); document.activeElement.blur();")
        time.sleep(0.3)
        height = self.driver.execute_script("return document.documentElement.scrollHeight")
        self.driver.set_window_size(width, height + 160)
        time.sleep(0.3)
        folder = os.environ.get("CCALC_PICTURES") or self.made.name
        path = pathlib.Path(folder) / f"page-{name}.png"
        main = self.driver.execute_script("return Math.ceil(document.querySelector('main').getBoundingClientRect().bottom)")
        clip: Dict[str, Any] = {"x": 0, "y": 0, "width": width, "height": main, "scale": 1}
        found = self.driver.execute_cdp_cmd("Page.captureScreenshot", {"format": "png", "clip": clip, "captureBeyondViewport": True})
        path.write_bytes(base64.b64decode(found["data"]))
        self.assertGreater(path.stat().st_size, 10000)

    def wrong(self) -> List[str]:
        """What the browser has said of faults since it was asked last; that a text is not saved is none."""
        said = [one["message"] for one in self.driver.get_log("browser") if one["level"] == "SEVERE"]
        return [one for one in said if "beforeunload" not in one]

    def says(self, path: str) -> None:
        """The browser has said of faults of this path, and of no others."""
        self.assertEqual({path in one for one in self.wrong()}, {True})

    def tearDown(self) -> None:
        self.assertEqual(self.wrong(), [])
        if self.there("main"):
            self.assertEqual(self.driver.execute_script(FAINT), [])

    def has_program(self) -> None:
        """Leaves a test out that the stand-in for a program would take too long for."""
        if os.environ["CCALC_PROGRAM"].endswith("second_program"):
            self.skipTest("the calculator is not built")


class Lesson(Browser):
    """The lesson, and what else the page shows."""

    def test_1_plan_picture_and_why(self) -> None:
        self.open("lamp.cc")
        self.sees("#problems", "Nothing is refused.")
        self.assertEqual({one.text for one in self.there(".cm-keyword")}, {"causes", "if"})
        self.assertEqual([one.text for one in self.there(".cm-comment")], ["% A lamp that may be flipped: how is it on, if it was off?"])
        self.click("Ask: 1")
        self.sees("#verdict", "horizon 1: complete, 1 listed")
        self.sees("#history", "0 nothing is true Step on does flip 1 on Step on")
        self.wait(lambda: len(self.there("#drawing g.node.now")) == 2, "the picture with both states")
        self.tap("#history .value[data-constant=on]")
        self.sees("#cause", "1: on=true is caused by line 3 flip causes on if -on.")
        self.assertEqual(len(self.there(".CodeMirror-linebackground.law")), 1)
        self.click("Show false and none too")
        self.sees("#history", "0 -on Step on does flip 1 on")
        self.click("Fold false and none away")
        self.wait(lambda: "-on" not in self.text("#history"), "false folded away")
        self.tap("#history .value[data-constant=on]")
        self.sees("#cause", "1: on=true is caused by line 3")
        self.picture("plan")

    def test_2_three_steps_by_hand(self) -> None:
        self.open("lamp.cc")
        self.click("Ask: 1")
        self.sees("#verdict", "complete")
        self.click("Step on", "#history tbody")
        for step in range(3):
            self.sees("#choices", f"What can be done at step {step}")
            [choice] = [one for one in self.there("#choices .choice") if one.text.startswith("flip")]
            choice.click()
            self.sees("#walk", "1 step by hand" if step == 0 else f"{step + 1} steps by hand")
        self.sees("#choices", "What can be done at step 3, and what comes of it: nothing → nothing changes flip → on is false")
        self.assertEqual(self.text("#walk tbody"), "0 nothing is true does flip 1 on does flip 2 -on does flip 3 on")
        self.tap("#walk .value.gone")
        self.sees("#cause", "2: on=false is caused by line 4 flip causes -on if on.")
        self.click("Draw what was seen")
        self.wait(lambda: len(self.there("#drawing g.edge")) == 4, "four transitions")
        self.picture("steps")
        self.click("Take the last step back")
        self.sees("#walk", "2 steps by hand")

    def test_3_slip_and_its_mend(self) -> None:
        self.open("lamp.cc")
        self.sees("#problems", "Nothing is refused.")
        self.write(page.SLIP)
        self.sees("#problems", "line 3 5 UnknownName A name is misspelt")
        self.assertFalse(self.there("#walker")[0].is_displayed())
        self.assertEqual(len(self.there(".CodeMirror-linebackground.wrong")), 1)
        self.assertEqual(self.text("#saved"), "not saved")
        self.picture("slip")
        self.write(page.LAMP)
        self.sees("#problems", "Nothing is refused.")
        self.assertEqual(len(self.there(".CodeMirror-linebackground.wrong")), 0)

    def test_4_counterexample(self) -> None:
        self.open("lights.cc")
        self.click("Ask: safe")
        self.sees("#verdict", "claim fails")
        self.sees("#history", "Counterexample, 1 step.")
        self.sees("#history tr.fails", "1 The claim fails here. green(north) green(east)")
        self.assertFalse([one for one in self.there("#queries button") if one.text == "Certain?"])
        self.wait(lambda: self.there("#drawing g.node.now"), "the picture")
        self.picture("claim")

    def test_5_judged_log(self) -> None:
        self.open("lamp.cc")
        self.click("Ask: 1")
        self.sees("#verdict", "complete")
        self.wait(lambda: self.there("#drawing g.node.now"), "the picture")
        self.click("Judge its log: 1")
        self.sees("#judged", "log accepted: horizons 0 to 1, blocked 1")
        self.picture("log")

    def test_judged_logs_of_a_claim_and_of_what_is_certain(self) -> None:
        self.has_program()
        self.ask("lights-mended.cc", "safe", "claim holds")
        self.click("Judge its log: safe")
        self.sees("#judged", "log accepted: horizons 0 to 3, blocked 0")
        self.open("lamp.cc")
        self.click("Certain?: 1")
        self.sees("#verdict", "complete")
        self.click("Judge its log: 1")
        self.sees("#judged", "log accepted: impossible 3")
        self.sees("#judgement", "surecheck mode judged it")

    def test_sure_is_a_table(self) -> None:
        self.open("lamp.cc")
        self.click("Certain?: 1")
        self.sees("#sure", "0 on false true 0 flip true false 1 on true false")
        self.sees("#history", "Example 1, 1 step.")
        self.open("toss.cc")
        self.click("Certain?: 1")
        self.sees("#sure", "1 heads false (example 1) true (example 2)")
        self.click("true (example 2)")
        self.sees("#history", "Example 2, 1 step. A click on a value asks why. Step Values 0 nothing is true Step on does toss 1 heads")

    def test_claims_at_every_horizon(self) -> None:
        self.open("airlock.cc")
        self.click("Ever?: apart")
        self.sees("#verdict", "claim holds at every horizon from 0 on horizon 0: claim holds; induction over 1 steps: holds")
        self.assertEqual(self.text("#history"), "")
        self.click("Judge its log: apart")
        self.sees("#judged", "log accepted: every horizon from 0 on, by induction over 1 steps")
        self.sees("#judgement", "forevercheck mode judged it")
        self.open("lamp.cc")
        self.write(page.MATCH)
        self.click("Ever?: dark")
        self.sees("#verdict", "claim fails")
        self.sees("#history", "Counterexample, 1 step.")
        self.sees("#history tr.fails", "1 The claim fails here. burnt lit")

    def test_what_an_induction_leaves_open(self) -> None:
        self.open("lift.cc")
        self.click("Ever?: safe")
        self.sees("#verdict", "not settled horizon 0: claim holds; induction over 1 steps: fails; horizon 1: claim holds;")
        self.sees("#verdict", "This may begin in a state that is never reached")
        self.sees("#history", "What the induction leaves open, 4 steps.")
        self.sees("#history tr.fails", "4 The claim fails here. moving open bolted")
        self.wait(lambda: len(self.there("#drawing g.node.now")) == 5, "the picture with all five states")
        self.tap("#history .value[data-constant=moving]")
        self.sees("#cause", "4: moving=true is caused by line 4 start causes moving.")
        self.click("Judge its log: safe")
        self.sees("#judged", "there is no log to judge: not settled")

    def test_histories_at_any_horizon(self) -> None:
        self.open("lamp.cc")
        self.click("Ever?: 1")
        self.sees("#verdict", "history found horizon 0: no history; induction over 1 steps: fails")
        self.sees("#history", "History 1, 1 step. A click on a value asks why. Step Values 0 nothing is true Step on does flip 1 on Step on")
        self.wait(lambda: len(self.there("#drawing g.node.now")) == 2, "the picture with both states")
        self.write(page.ASH)
        self.click("Ever?: new")
        self.sees("#verdict", "no history at any horizon from 0 on")
        self.assertEqual(self.text("#history"), "")

    def test_claim_fails_at_the_step_that_it_names(self) -> None:
        self.open("lamp.cc")
        self.write(page.MATCH.replace("maxstep :: 1;", "maxstep :: 2;").replace("claim :: maxstep", "claim :: 1"))
        self.click("Ask: dark")
        self.sees("#history tr.fails", "1 The claim fails here. burnt lit")

    def test_attributes_without_a_value_are_folded_away(self) -> None:
        self.open("lamp.cc")
        self.write(REST)
        self.click("Ask: rest")
        self.sees("#history", "0 at=home Step on does nothing 1 at=home Step on")
        self.click("Show false and none too")
        self.sees("#history", "0 at=home Step on does -go to=none 1 at=home Step on")

    def test_transitions_as_a_picture(self) -> None:
        self.ask("toss.cc", "transitions", "complete, 6 listed")
        self.click("Transitions")
        self.wait(lambda: len(self.there("#drawing g.node")) == 2, "two states")
        edges = sorted(" ".join(one.text.split()) for one in self.there("#drawing g.edge"))
        self.assertEqual(edges, ["nothing toss", "nothing toss", "toss", "toss"])

    def test_picture_that_comes_late_does_not_replace_a_later_one(self) -> None:
        drawn = sys.modules["page.jobs"].work_on

        def slow(work: Any, words: List[str], *rest: Any) -> Any:
            if words[-1].endswith("histories"):
                time.sleep(3)
            yield from drawn(work, words, *rest)

        with mock.patch("page.jobs.work_on", slow):
            self.ask("toss.cc", "transitions", "complete, 6 listed")
            self.click("Transitions")
            self.wait(lambda: len(self.there("#drawing g.node")) == 2, "two states")
            time.sleep(5)
            self.assertEqual(len(self.there("#drawing g.node")), 2)

    def test_picture_is_made_larger_and_moved(self) -> None:
        self.ask("lights.cc", "safe", "claim fails")
        self.wait(lambda: self.there("#drawing g.node.now"), "the picture")
        before = self.width_of("#drawing svg")
        for _ in range(4):
            self.click("Larger picture")
        self.assertAlmostEqual(self.width_of("#drawing svg") / before, 1.25**4, delta=0.05)
        box = "const one = document.getElementById('drawing'); return "
        wide, high, left = self.driver.execute_script(
            box + "[one.scrollWidth - one.clientWidth, one.scrollHeight - one.clientHeight, one.scrollLeft]")
        self.assertEqual((wide > 100, high, left), (True, 0, 0))
        svg = self.there("#drawing svg")[0]
        self.hands().move_to_element_with_offset(svg, -100, 0).click_and_hold().move_by_offset(-60, 0).release().perform()
        self.assertEqual(self.driver.execute_script(box + "one.scrollLeft"), 60)
        self.click("Whole")
        self.assertAlmostEqual(self.width_of("#drawing svg"), before, delta=1)

    def test_text_is_saved_and_not_over_another_ones(self) -> None:
        self.open("mine.cc")
        self.write("% Changed.\n" + page.LAMP)
        self.click("Save")
        self.wait(lambda: self.text("#saved") == "saved", "saved")
        path = pathlib.Path(self.made.name) / "mine.cc"
        self.assertEqual(path.read_text(), "% Changed.\n" + page.LAMP)
        path.write_text(page.LAMP)
        self.write("% Changed once more.\n" + page.LAMP)
        self.click("Save")
        self.sees("#saved", "mine.cc was changed by another program")
        self.assertEqual(path.read_text(), page.LAMP)
        self.says("/save")

    def test_queries_and_laws_of_an_included_file(self) -> None:
        self.open("asked.cc")
        self.sees("#queries", "1 Ask Certain? Ever? Judge its log laws.cc, line 5")
        self.click("Ask: 1")
        self.sees("#verdict", "complete")
        self.tap("#history .value[data-constant=on]")
        self.sees("#cause", "1: on=true is caused by laws.cc, line 3 flip causes on if -on.")
        self.click("laws.cc, line 3")
        self.wait(lambda: self.driver.title == "laws.cc - CCalc", "the file of the law")

    def test_parts_that_are_not_there(self) -> None:
        which = shutil.which
        with contextlib.ExitStack() as without:
            for name in ("page.parts.CODEMIRROR", "page.parts.D3"):
                without.enter_context(mock.patch(name, pathlib.Path("/nowhere")))
            without.enter_context(mock.patch.dict("page.server.PACKAGED", clear=True))
            without.enter_context(mock.patch("shutil.which", lambda name: None if name == "dot" else which(name)))
            self.open("lamp.cc")
            for package in ("libjs-codemirror", "libjs-d3", "graphviz"):
                self.sees("#missing", f"install it by: apt-get install {package}")
            self.sees("#problems", "Nothing is refused.")
            text = self.there("#plain")[0]
            self.assertEqual(text.get_attribute("value"), page.LAMP)
            text.clear()
            text.send_keys(page.SLIP)
            self.sees("#problems", "line 3 5 UnknownName")
            text.clear()
            text.send_keys(page.LAMP)
            self.sees("#problems", "Nothing is refused.")
            self.click("Ask: 1")
            self.sees("#history", "0 nothing is true Step on does flip 1 on Step on")
            self.sees("#drawing", "pictures need Graphviz: apt-get install graphviz")
            self.tap("#history .value[data-constant=on]")
            self.sees("#cause", "1: on=true is caused by line 3 flip causes on if -on.")
        self.says("/packaged/")

    def test_histories_next_all_and_by_key(self) -> None:
        self.open("toss.cc")
        self.click("Ask: transitions")
        self.sees("#of", "of 6")
        self.click("Next")
        self.sees("#history caption", "History 2, 1 step.")
        self.click("All", "#walker")
        listed = [("nothing is true", "nothing", "nothing is true"), ("nothing is true", "toss", "nothing is true"),
                  ("nothing is true", "toss", "heads"), ("heads", "nothing", "heads"), ("heads", "toss", "nothing is true"),
                  ("heads", "toss", "heads")]
        words = [f"{number}: " + " \u2192 ".join(one) for number, one in enumerate(listed, 1)]
        self.assertEqual([one.text for one in self.there("#list li")], words)
        self.tap("#list li button", 4)
        self.sees("#history caption", "History 5")
        key = self.there("#key")[0]
        key.clear()
        key.send_keys("1:0,1,1", Keys.ENTER)
        self.sees("#history caption", "History 3")
        key.clear()
        key.send_keys("2:0,1,1,1,1", Keys.ENTER)
        self.sees("#history caption", "A history that is not in the listing so far, 2 steps.")
        key.clear()
        key.send_keys("1:7", Keys.ENTER)
        self.sees("#history", "This is the key of no history")

    def test_no_history_and_what_to_ask(self) -> None:
        self.open("lamp.cc")
        self.write(page.LAMP.replace("0..2", "0"))
        self.sees("#problems", "Nothing is refused.")
        self.click("Ask: 1")
        self.sees("#verdict", "no history")
        self.click("Why is there none?")
        self.wait(lambda: "whynot mode" in self.text("#verdict") or "conflict of" in self.text("#verdict"), "whynot")

    def test_whynot_and_explain_have_their_places(self) -> None:
        self.open("lamp.cc", self.strangely)
        self.write("\nflip causes onn if -on.\n")
        self.sees("#problems", "line 2, column 13 5 UnknownName 'onn' is not declared; the nearest name is 'on'")
        self.assertEqual(self.text(".wrong-word"), "onn")
        self.write("% none\n:- query maxstep :: 0.\n")
        self.sees("#problems", "Nothing is refused.")
        self.click("Ask: without a label")
        self.click("Why is there none?")
        self.sees("#verdict", "conflict of 3")
        self.sees("#verdict", "condition 1 law lamp.cc:2")
        self.assertEqual(len(self.there(".CodeMirror-linebackground.law")), 1)
        self.sees("#history", "Without condition 1, 1 step.")

    def test_odd_names_are_texts(self) -> None:
        self.open("<b onclick=x>.cc")
        self.sees("#problems", "Nothing is refused.")
        self.assertEqual(self.there("#file b, option b"), [])


class Seen(Browser):
    """By keyboard alone, with large letters, in a narrow window, and on paper."""

    def test_keyboard_alone(self) -> None:
        self.visit()
        self.reach("To the answer")
        self.reach("file")
        self.press("lights.cc")
        self.wait(lambda: self.driver.title == "lights.cc - CCalc" and self.there("#queries .strong"), "the other description")
        for words in ("Save", "Smaller letters", "Larger letters", "Print", "the text", "Ask: safe"):
            self.reach(words)
        self.press(Keys.ENTER)
        self.sees("#verdict", "claim fails")
        self.wait(lambda: self.there("#drawing g.node.now"), "the picture")
        self.reach("Ever?: safe")
        self.reach("Judge its log: safe")
        self.reach("number")
        for words in ("key", "Find", "Step on", "turn(north), why?"):
            self.reach(words)
        self.press(Keys.ENTER)
        self.sees("#cause", "0: turn(north)=true is caused by line 5")
        self.reach("green(east), changed, why?")
        self.press(Keys.SPACE)
        self.sees("#cause", "1: green(east)=true is caused by line 6 turn(L) causes green(L) if -green(L).")
        self.reach("Show false and none too")
        self.press(Keys.ENTER)
        self.wait(lambda: "Fold false and none away" in self.driver.execute_script(FOCUSED)[0], "the button has the focus still")
        for words in ("line 6", "Histories", "Transitions", "Larger picture", "Smaller picture", "Whole", "drawing", "All states"):
            self.reach(words)
        self.press(Keys.ENTER)
        self.wait(lambda: "nothing is true" in self.driver.execute_script(FOCUSED)[0], "the first state has the focus")
        self.press(Keys.ENTER)
        self.wait(lambda: "nothing\u2192 nothing changes" in self.driver.execute_script(FOCUSED)[0], "the first choice has the focus")
        self.press(Keys.TAB, Keys.ENTER)
        self.sees("#walk", "1 step by hand")
        self.wait(lambda: "choice" in self.driver.switch_to.active_element.get_attribute("class"), "a choice has the focus")
        self.reach("Take the last step back", Keys.SHIFT + Keys.TAB)
        self.reach("Draw what was seen")
        self.press(Keys.ENTER)
        self.wait(lambda: len(self.there("#drawing g.node")) > 2, "the transitions that were seen")

    def test_keys_of_the_page(self) -> None:
        self.open("mine.cc")
        self.sees("#problems", "Nothing is refused.")
        self.driver.execute_script("document.querySelector('.CodeMirror').CodeMirror.focus()")
        self.press("% One more line.", Keys.ENTER)
        self.sees("#saved", "not saved")
        self.hands().key_down(Keys.CONTROL).send_keys("s").key_up(Keys.CONTROL).perform()
        self.wait(lambda: self.text("#saved") == "saved", "saved by keys")
        self.assertEqual((pathlib.Path(self.made.name) / "mine.cc").read_text(), "% One more line.\n" + page.LAMP)
        self.hands().key_down(Keys.CONTROL).send_keys(Keys.ENTER).key_up(Keys.CONTROL).perform()
        self.sees("#verdict", "complete, 1 listed")
        self.open("lamp.cc", self.strangely)
        self.write("% forever /dev/null\n:- query maxstep :: 0.\n")
        self.wait(lambda: self.there("#queries .strong"), "the query")
        self.click("Ask: without a label")
        self.sees("#progress", " s")
        self.press(Keys.ESCAPE)
        self.sees("#verdict", "stopped")

    def test_focus_stays_where_queries_are_told_anew(self) -> None:
        self.open("lamp.cc")
        self.sees("#queries", "line 5")
        self.driver.execute_script("document.querySelector('#queries .strong').focus()")
        self.write(page.LAMP + ":- query label :: two; maxstep :: 0.\n")
        self.sees("#queries", "two Ask")
        self.assertIn("Ask: 1", self.driver.execute_script(FOCUSED)[0])

    def test_what_can_have_the_focus_has_a_name(self) -> None:
        self.ask("lights.cc", "safe", "claim fails")
        self.click("Step on", "#history tbody")
        self.sees("#choices", "What can be done at step 0")
        nodes = self.driver.execute_cdp_cmd("Accessibility.getFullAXTree", {})["nodes"]
        named = []
        for node in nodes:
            held = {one["name"]: one["value"].get("value") for one in node.get("properties", [])}
            if held.get("focusable") and node["role"]["value"] != "RootWebArea":
                named.append((node["role"]["value"], node.get("name", {}).get("value", "")))
        self.assertGreater(len(named), 20)
        self.assertEqual([one for one in named if not one[1].strip() and one[0] != "generic"], [])

    def larger(self, times: int) -> None:
        for _ in range(times):
            self.click("Larger letters")

    def smaller(self) -> None:
        self.driver.execute_script("localStorage.clear()")

    def test_twice_the_letter_size(self) -> None:
        size = "return parseFloat(getComputedStyle(document.body).fontSize)"
        try:
            self.ask("lights.cc", "safe", "claim fails")
            self.wait(lambda: self.there("#drawing g.node.now"), "the picture")
            before, picture = self.driver.execute_script(size), self.width_of("#drawing svg")
            self.larger(6)
            self.assertEqual((self.driver.execute_script(size) / before, self.driver.execute_script(WIDER)), (2, 0))
            self.assertAlmostEqual(self.width_of("#drawing svg") / picture, 2, delta=0.05)
            self.click("Step on", "#history tbody")
            self.sees("#choices", "What can be done at step 0")
            self.assertEqual(self.driver.execute_script(WIDER), 0)
            self.open("toss.cc")
            self.click("Certain?: 1")
            self.sees("#sure", "1 heads")
            self.assertEqual((self.driver.execute_script(size) / before, self.driver.execute_script(WIDER)), (2, 0))
            self.click("Ask: transitions")
            self.sees("#of", "of 6")
            self.click("All", "#walker")
            self.assertEqual(self.driver.execute_script(WIDER), 0)
            self.open("lift.cc")
            self.click("Ever?: safe")
            self.sees("#history", "What the induction leaves open")
            self.assertEqual(self.driver.execute_script(WIDER), 0)
        finally:
            self.smaller()

    def test_narrow_window(self) -> None:
        """320 pixels, as the guidelines have it: nothing stands out to the right."""
        self.ask("lights.cc", "safe", "claim fails")
        self.wait(lambda: self.there("#drawing g.node.now"), "the picture")
        self.click("Step on", "#history tbody")
        self.sees("#choices", "What can be done at step 0")
        measures = {"width": 320, "height": 800, "deviceScaleFactor": 1, "mobile": False}
        self.driver.execute_cdp_cmd("Emulation.setDeviceMetricsOverride", measures)
        try:
            self.assertEqual(self.driver.execute_script("return window.innerWidth"), 320)
            self.assertEqual(self.driver.execute_script(WIDER), 0)
        finally:
            self.driver.execute_cdp_cmd("Emulation.clearDeviceMetricsOverride", {})

    def test_print_leaves_the_controls_out(self) -> None:
        self.ask("lamp.cc", "1", "complete")
        self.wait(lambda: self.there("#drawing g.node.now"), "the picture")
        self.tap("#history .value[data-constant=on]")
        self.sees("#cause", "1: on=true is caused by line 3")
        self.click("Larger picture")
        self.driver.execute_cdp_cmd("Emulation.setEmulatedMedia", {"media": "print"})
        self.driver.execute_script("window.dispatchEvent(new Event('beforeprint'))")
        try:
            parts = ["header", "#printed", "#history table", "#walker", "#editor", "#drawing svg", "#history td.screen", "#stepping"]
            shown = [self.there(part)[0].is_displayed() for part in parts]
            self.assertEqual(shown, [False, True, True, False, False, True, False, False])
            self.assertEqual(self.text("#history"), "History 1, 1 step. Step Values 0 nothing is true does flip 1 on")
            self.assertEqual(self.text("#description-head"), "Text of lamp.cc")
            self.assertIn("3 flip causes on if -on.", self.text("#printed"))
            self.assertEqual(self.text("#cause"), "1: on=true is caused by line 3 flip causes on if -on.")
            self.assertEqual(self.driver.execute_script(WIDER), 0)
        finally:
            self.driver.execute_cdp_cmd("Emulation.setEmulatedMedia", {"media": ""})
        printed = base64.b64decode(self.driver.execute_cdp_cmd("Page.printToPDF", {})["data"])
        self.assertEqual(printed.count(b"/Type /Page\n"), 1)


class Heavy(Browser):
    """Runs that take too much, and texts that are too long, leave the page usable."""

    def begin(self, text: str, button: str = "Ask") -> None:
        self.open("lamp.cc", self.strangely)
        self.write(text)
        self.wait(lambda: self.there("#queries .strong"), "the query")
        self.click(f"{button}: without a label")

    def is_over(self) -> bool:
        return bool(page.waits_for(lambda: not self.strangely.runner.under_way and not self.served.runner.under_way))

    def test_run_that_never_ends_is_stopped(self) -> None:
        self.begin("% forever /dev/null\n:- query maxstep :: 0.\n")
        self.sees("#progress", " s")
        self.click("Stop")
        self.sees("#verdict", "stopped")
        self.assertTrue(self.is_over())

    def test_what_was_listed_so_far_is_kept(self) -> None:
        self.begin("% trickles\n:- query maxstep :: 0.\n")
        self.sees("#progress", "5 listed so far")
        self.sees("#of", "of 5 so far")
        self.sees("#history", "History 1, 0 steps.")
        self.click("Next")
        self.sees("#history", "0 at=2")
        self.click("Stop")
        self.sees("#verdict", "stopped, 5 listed so far")
        number = self.there("#number")[0]
        number.clear()
        number.send_keys("5", Keys.ENTER, Keys.TAB)
        self.sees("#history", "0 at=5")
        self.assertTrue(self.is_over())

    def test_horizons_that_were_told_before_a_stop_are_kept(self) -> None:
        self.begin("% open\n:- query maxstep :: 0.\n", "Ever?")
        self.sees("#progress", "2.")
        self.click("Stop")
        self.sees("#verdict", "stopped horizon 0: claim holds; induction over 1 steps: fails")
        self.assertTrue(self.is_over())

    def test_run_ends_with_its_page(self) -> None:
        self.begin("% forever /dev/null\n:- query maxstep :: 0.\n")
        self.sees("#progress", " s")
        self.driver.get("about:blank")
        self.assertTrue(self.is_over())

    def test_search_that_takes_too_long(self) -> None:
        self.has_program()
        self.open("lamp.cc")
        self.write(LONG)
        self.sees("#problems", "Nothing is refused.")
        self.click("Ask: sum")
        self.sees("#progress", "2.")
        self.click("Stop")
        self.sees("#verdict", "stopped")
        self.assertTrue(self.is_over())
        self.write(page.LAMP)
        self.sees("#queries", "line 5")
        self.click("Ask: 1")
        self.sees("#verdict", "complete, 1 listed")

    def many(self, count: int) -> None:
        number = self.there("#number")[0]
        number.clear()
        number.send_keys(str(count), Keys.ENTER, Keys.TAB)
        self.sees("#history caption", f"History {count}, ")
        self.click("All", "#walker")
        self.assertEqual(len(self.there("#list li")), 100)
        self.click("Page after")
        self.sees("#list li:first-child", "101: ")

    def test_hundred_thousand_histories(self) -> None:
        self.begin("% many\n:- query maxstep :: 1.\n")
        self.wait(lambda: self.text("#of") == "of 100000", "all of them")
        self.many(99999)
        self.sees("#history", "at=99999")

    def test_hundred_thousand_histories_of_the_program(self) -> None:
        """All states of seventeen switches, 131,072."""
        self.has_program()
        self.open("lamp.cc")
        self.write(MANY)
        self.click("Ask: all")
        self.wait(lambda: self.text("#of") == "of 100", "the first ones")
        self.click("All", "#walker")
        self.wait(lambda: self.text("#of") == "of 131072", "all of them")
        self.sees("#verdict", "complete, 131072 listed")
        self.many(131072)
        self.sees("#history", "0 " + " ".join(f"p{number}" for number in range(17)))

    def test_large_text(self) -> None:
        self.open("large.cc")
        self.sees("#problems", "14 Limit file bytes 1048576")
        begin = time.monotonic()
        self.driver.execute_script("document.querySelector('.CodeMirror').CodeMirror.focus()")
        self.press("% x", Keys.ENTER)
        self.sees("#saved", "not saved")
        self.assertLess(time.monotonic() - begin, 10)
        self.write(page.LAMP)
        self.sees("#problems", "Nothing is refused.")


def cases() -> List[Any]:
    return [Lesson, Seen, Heavy]
