"""The page as it stands before whoever opens it: its policy, its words, its sizes and its colours.

It wants what `test_web` wants."""

import base64
import hashlib
import json
import re
import shutil
import sys
import tempfile
import unittest
from pathlib import Path

from test_web import PAGE, TOP, InBrowser, advice_of
from test_web_jobs import InJob

sys.path.insert(0, str(TOP / "web"))
import assemble_page  # noqa: E402  (the script stands in the folder that was just added)

POLICY = "document.querySelector('meta[http-equiv=Content-Security-Policy]').content"
# What the browser holds back as the page does this: the part of the policy that forbids it.
FORBIDDEN = """new Promise((done) => {
    document.addEventListener("securitypolicyviolation", (one) => done(one.effectiveDirective), { once: true });
    DOES
})"""


class Assembled(unittest.TestCase):
    def test_it_is_what_its_sources_make(self):
        """The committed page has these sources, over the module that it has."""
        page = TOP / "docs/try.html"
        is_same = page.read_text(encoding="utf-8") == assemble_page.page(assemble_page.packed(page))
        self.assertTrue(is_same, "python3 web/assemble_page.py docs/try.html docs/try.html makes it anew")

    def test_the_policy_names_each_script_and_style(self):
        text = PAGE.read_text(encoding="utf-8")
        policy = re.search(r'http-equiv="Content-Security-Policy" content="([^"]*)"', text).group(1)
        inline = re.findall(r"<(?:script|style)>(.*?)</(?:script|style)>", text, re.DOTALL)
        self.assertGreater(len(inline), 5)
        sums = [f"'sha256-{base64.b64encode(hashlib.sha256(one.encode()).digest()).decode()}'" for one in inline]
        self.assertEqual(sorted(re.findall(r"'sha256-[^']*'", policy)), sorted(sums))


class Policy(InBrowser):
    def test_what_it_allows(self):
        parts = dict(part.strip().split(" ", 1) for part in self.tab.evaluate(POLICY).split(";"))
        self.assertEqual(parts.pop("default-src"), "'none'")
        self.assertEqual(parts.pop("img-src"), "data:")
        self.assertEqual((parts.pop("base-uri"), parts.pop("form-action")), ("'none'", "'none'"))
        self.assertEqual(set(parts), {"script-src", "style-src"})
        words = {word for part in parts.values() for word in part.split() if not word.startswith("'sha256-")}
        self.assertEqual(words, {"'wasm-unsafe-eval'"})

    def test_what_it_forbids(self):
        """Nothing is fetched, and no script but the page's own runs, even where one was put into it."""
        for does, part in (
                ('fetch("https://example.invalid/").catch(() => {});', "connect-src"),
                ('new Image().src = "https://example.invalid/one.png";', "img-src"),
                ('document.body.append(Object.assign(document.createElement("script"), { textContent: "globalThis.strange = 1" }));',
                 "script-src-elem"),
                ('document.body.append(Object.assign(document.createElement("style"), { textContent: "body { color: red }" }));',
                 "style-src-elem")):
            with self.subTest(part):
                script = FORBIDDEN.replace("DOES", f"try {{ {does} }} catch {{ }}")
                self.assertEqual(self.tab.evaluate(script), part)
        self.assertFalse(self.tab.evaluate("'strange' in globalThis"))

    def test_all_that_it_needs_is_allowed(self):
        """Whatever is pressed, the browser holds nothing back."""
        self.tab.evaluate("""globalThis.held_back = [];
            document.addEventListener("securitypolicyviolation", (one) => held_back.push(one.effectiveDirective)); 0""")
        for name in self.tab.evaluate("EXAMPLES.map((one) => one.name)"):
            self.choose(name)
            self.click("run")
        self.click("tab_job")
        self.click("job_all")
        self.tab.evaluate("new Promise((done) => requestAnimationFrame(() => requestAnimationFrame(done)))")
        self.assertEqual(self.tab.evaluate("held_back"), [])
        self.assertFalse(self.is_hidden("job_answer"))


class Opening(InBrowser):
    """The page as whoever has never seen it meets it."""

    def test_three_sentences_say_it(self):
        said = self.text("intro")
        self.assertEqual(len(re.findall(r"\.(?:\s|$)", said)), 3, said)
        self.assertLess(*self.tab.evaluate("['intro', 'views'].map((id) => document.getElementById(id).getBoundingClientRect().top)"))

    def test_the_first_example_is_refused(self):
        self.assertEqual(self.tab.evaluate("document.getElementById('examples').selectedOptions[0].text"), "refused: a byte too far")
        self.assertEqual(self.text("verdict"), "refused 33: access out of the part at slot 2")
        self.assertEqual(self.marked_lines(), [5])
        self.assertFalse(self.is_hidden("mend"))
        self.assertEqual(self.text("mend_told"), "To have it accepted, change the need from 15 to 16.")

    def test_the_change_is_what_it_takes(self):
        """It is accepted with the need that is told, by hand and by the button, and then it runs."""
        self.fill(need="16")
        self.tab.wait_for("document.getElementById('verdict').textContent === 'accepted, cost 4'")
        self.assertTrue(self.is_hidden("mend"))
        self.tab.load(self.address)
        self.click("mend_it")
        self.assertEqual((self.text("verdict"), self.tab.evaluate("document.getElementById('need').value")), ("accepted, cost 4", "16"))
        self.assertTrue(self.is_hidden("mend"))
        self.click("run")
        self.assertEqual(self.facts()["R0"], "51 (0x33)")

    def test_each_refusal_has_a_change(self):
        for source, need, status, told in (
                ("mov64 r0, 1\nmul65 r0, 2\nexit", "0", 11, ""), ("mov64 r0\nexit", "0", 12, ""),
                ("mov64 r11, 0\nexit", "0", 13, ""), ("; nothing", "0", 1, ""), ("ja +9\nexit", "0", 21, ""),
                ("mov64 r0, 1", "0", 24, ""), ("mov64 r0, 0\nja -1", "0", 23, ""), ("mov64 r0, 1\nexit\nexit", "0", 25, ""),
                ("exit", "0", 31, ""), ("ldxb r0, [r10+0]\nexit", "0", 32, ""), ("mov64 r0, 1\nldxb r0, [r0+0]\nexit", "0", 34, ""),
                ("mov64 r10, 1\nmov64 r0, 1\nexit", "0", 36, ""), ("call 9\nexit", "0", 37, ""),
                ("add64 r1, r2\nldxb r0, [r1+0]\nexit", "4", 33, ""),
                ("mov64 r0, 0\nexit", "65537", 38, "To have it accepted, change the need from 65537 to 65536.")):
            told = told or advice_of(status)
            with self.subTest(status):
                self.tab.evaluate(f"show({json.dumps(source)}, {{ need: '{need}' }}); do_verify()")
                self.assertTrue(self.text("verdict").startswith(f"refused {status}"), self.text("verdict"))
                self.assertEqual(self.text("mend_told"), told)
                self.assertFalse(self.is_hidden("mend"))
                self.assertEqual(self.is_hidden("mend_it"), not told.startswith("To have it accepted"))

    def test_a_run_that_is_refused_has_one_too(self):
        self.choose("Internet checksum")
        self.fill(credit="17")
        self.click("run")
        self.assertEqual(self.text("mend_told"), "Give it a credit of at least 18.")
        self.fill(credit="18", memory="00*9")
        self.click("run")
        self.assertEqual(self.text("mend_told"), "Give it a memory of at least 10 bytes.")

    def test_its_words_are_explained(self):
        words = """[...document.querySelectorAll("#VIEW_view dfn")].filter((one) => one.checkVisibility())
            .map((one) => one.textContent.toLowerCase())"""
        self.assertLessEqual({"need", "credit", "part", "slot"}, set(self.tab.evaluate(words.replace("VIEW", "program"))))
        self.click("tab_job")
        self.assertLessEqual({"need", "credit", "part", "slot", "place"}, set(self.tab.evaluate(words.replace("VIEW", "job"))))
        # (a reader of a screen is told them with their fields)
        told = "[...document.querySelectorAll('#need, #credit, #memory, .job_need, #job_credit, #job_buffer')].map((one) => " \
               "document.getElementById(one.getAttribute('aria-describedby')).textContent)"
        self.assertTrue(all(self.tab.evaluate(told)))

    def test_its_links_lead_to_pages_of_the_docs(self):
        links = self.tab.evaluate("[...document.querySelectorAll('a')].map((one) => [one.getAttribute('href'), one.textContent])")
        self.assertEqual([page for page, _ in links], ["theorem.md", "profile.md", "refusals.md", "glossary.md"])
        for page, name in links:
            with self.subTest(page):
                self.assertTrue((TOP / "docs" / page).is_file())
                self.assertTrue(name.strip())

    def test_its_links_where_a_package_has_put_it(self):
        with tempfile.TemporaryDirectory() as room:
            page = Path(room) / "share/telgovan/telgovan.html"
            page.parent.mkdir(parents=True)
            shutil.copyfile(PAGE, page)
            self.tab.load(page.as_uri())
            links = self.tab.evaluate("[...document.querySelectorAll('a')].map((one) => one.href)")
            self.assertEqual(links[-1], (Path(room) / "share/doc/telgovan/docs/glossary.md").as_uri())


# Elements that can be seen: what there is to press with its box, and what says something with the size of its letters.
PRESSED = """[...document.querySelectorAll("button, select, input, textarea, summary, a[href], [role=treeitem], .go")]
    .filter((one) => one.checkVisibility()).map((one) => [one.id || one.className || one.textContent, one.getBoundingClientRect()])
    .filter(([, box]) => box.width < 44 || box.height < 44).map(([name, box]) => `${name}: ${box.width} by ${box.height}`)"""
LETTERS = """[...document.querySelectorAll("body *")].filter((one) => !one.closest("script, style") && one.checkVisibility() &&
        (one.matches("input, textarea, select") || [...one.childNodes].some((node) => node.nodeType === 3 && node.textContent.trim())))
    .map((one) => [one.id || one.className.baseVal || one.className || one.tagName,
        parseFloat(getComputedStyle(one).fontSize) * (one.ownerSVGElement ? one.getScreenCTM().a : 1)])
    .filter(([, size]) => size < 16).map(([name, size]) => `${name}: ${size}`)"""
PHONES = ((390, 844), (360, 740))
# Cells of the last column that stand out of what can be seen of their table.
CUT = """(() => {
    const room = document.querySelector("#job_answer .wide").getBoundingClientRect();
    const cells = [...document.querySelectorAll("#job_answers tbody td:last-child")];
    const reach = (cell) => {
        const letters = document.createRange();
        letters.selectNodeContents(cell);
        return Math.max(letters.getBoundingClientRect().right, cell.getBoundingClientRect().right);
    };
    return [cells.length, cells.filter((one) => !one.checkVisibility() || reach(one) > Math.min(room.right, innerWidth) + 0.5).length];
})()"""


class Widths(InJob):
    def states(self):
        """The page in each of its states, by name."""
        self.click("tab_program")
        self.choose("refused: a byte too far")
        yield "refused"
        self.choose("Internet checksum")
        self.click("run")
        self.click("step_forth")
        yield "run"
        self.click("tab_job")
        self.choose_job("a sum by eight tasks")
        for _ in range(20):
            self.click("job_forth")
        yield "under way"
        self.click("job_all")
        yield "over"

    def test_a_phone(self):
        for size in PHONES:
            self.tab.size(*size)
            for name in self.states():
                with self.subTest(size=size, state=name):
                    self.assertEqual(self.tab.evaluate(PRESSED), [])
                    self.assertEqual(self.tab.evaluate(LETTERS), [])
                    self.assertLessEqual(self.tab.evaluate("document.documentElement.scrollWidth - innerWidth"), 0)
                    self.picture(f"phone_{size[0]}_{name.replace(' ', '_')}")

    def test_the_last_column_of_the_answers(self):
        for job in ("a spawn", "a sum by eight tasks", "spawns that are refused"):
            for width in (1280, 390, 768, 840, 360):
                self.tab.size(width, 900)
                self.choose_job(job)
                self.click("job_all")
                with self.subTest(job=job, width=width):
                    self.assertEqual(self.tab.evaluate(CUT), [5, 0])
                    self.assertLessEqual(self.tab.evaluate("document.documentElement.scrollWidth - innerWidth"), 0)

    def test_long_answers(self):
        """The largest R0 and a long buffer."""
        self.type_job([(0, "mov64 r0, -1\nexit\n")], 2**31 - 1, "ff*64")
        for width in (1280, 840, 390):
            self.tab.size(width, 900)
            self.click("job_start")
            self.click("job_all")
            with self.subTest(width):
                self.assertEqual(self.tab.evaluate(CUT), [5, 0])
                self.assertLessEqual(self.tab.evaluate("document.documentElement.scrollWidth - innerWidth"), 0)

    def test_the_colours_of_the_system(self):
        light = "(getComputedStyle(document.NAME).backgroundColor.match(/[0-9.]+/g).slice(0, 3).map(Number).reduce((a, b) => a + b) / 765)"
        for scheme, least, most in (("light", 0.9, 1), ("dark", 0, 0.2)):
            self.tab.colours(scheme)
            for name in ("documentElement", "getElementById('source').parentElement", "getElementById('job_credit')"):
                with self.subTest(scheme=scheme, of=name):
                    shown = self.tab.evaluate(light.replace("NAME", name))
                    self.assertTrue(least <= shown <= most, shown)


if __name__ == "__main__":
    unittest.main()
