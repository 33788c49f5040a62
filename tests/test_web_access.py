"""The page and its view of a job, for whoever has no mouse or no screen: written rules of access, keys, contrast, and old browsers.

It wants what `test_web` wants."""

import unittest

from test_web import BROWSER, CTRL, NARROW, SHIFT, InBrowser
from test_web_jobs import InJob

# What a reader of a screen is told of each element that it can stop at, by the rules of ARIA and of WCAG that a page can be asked for.
RULES = """(() => {
    const wrong = [];
    const seen = (one) => one.checkVisibility();
    const named = (one) => Boolean(one.labels?.length || one.ariaLabel?.trim() ||
        (one.getAttribute("aria-labelledby") ?? "").split(" ").some((id) => document.getElementById(id)?.textContent.trim()) ||
        (/^(BUTTON|SUMMARY|A|LI)$/.test(one.tagName) && one.textContent.trim()));
    const tell = (rule, one) => wrong.push(`${rule}: ${one.tagName} ${one.id || one.className}`);
    const all = [...document.querySelectorAll("body *")].filter(seen);
    const stops = "button, input, select, textarea, summary, a[href], [tabindex]";
    for (const one of all) {
        const role = one.getAttribute("role");
        if (one.matches(stops) && !named(one)) tell("a control has a name", one);
        if (one.matches(stops) && !one.matches("button, input, select, textarea, summary, a[href]") && !role) tell("what takes the focus has a role", one);
        if (["tablist", "tabpanel", "tree", "group", "img"].includes(role) && !named(one)) tell("such a role has a name", one);
        const parts = { tablist: "tab", tree: "treeitem" }[role];
        if (parts && ![...one.children].every((child) => child.getAttribute("role") === parts)) tell(`it has nothing but ${parts}s`, one);
        const room = { tab: "tablist", treeitem: "tree" }[role];
        if (room && !one.closest(`[role=${room}]`)) tell(`it stands in a ${room}`, one);
        if (role === "tab" && document.getElementById(one.getAttribute("aria-controls"))?.getAttribute("role") !== "tabpanel") tell("a tab controls a panel", one);
        if (role === "treeitem" && !(Number(one.ariaLevel) >= 1 && /^(true|false)$/.test(one.ariaSelected))) tell("a row says its level and whether it is chosen", one);
        for (const name of ["aria-labelledby", "aria-describedby", "aria-controls"]) {
            for (const id of (one.getAttribute(name) ?? "").split(" ").filter(Boolean)) {
                if (!document.getElementById(id)) tell(`${name} leads somewhere`, one);
            }
        }
        if (one.tabIndex > 0) tell("no order of its own", one);
        if (one.ariaHidden === "true" && one.querySelector(stops)) tell("what is hidden from readers takes no focus", one);
        if (/^H[1-6]$/.test(one.tagName) && !one.textContent.trim()) tell("a heading says something", one);
        if (one.tagName === "TH" && !one.scope) tell("a head of a table has a scope", one);
        if (one.tagName === "FIELDSET" && one.firstElementChild.tagName !== "LEGEND") tell("a group of fields has a legend", one);
    }
    const ids = [...document.querySelectorAll("[id]")].map((one) => one.id);
    for (const id of ids) if (ids.indexOf(id) !== ids.lastIndexOf(id)) wrong.push(`an id stands once: ${id}`);
    for (const room of document.querySelectorAll("[role=tablist], [role=tree]")) {
        if (seen(room) && [...room.children].filter((one) => one.tabIndex === 0).length !== 1) tell("one of the parts is in the order of the Tab key", room);
    }
    const levels = all.filter((one) => /^H[1-6]$/.test(one.tagName)).map((one) => Number(one.tagName[1]));
    levels.forEach((level, place) => { if (level > (levels[place - 1] ?? 0) + 1) wrong.push(`no level of headings is left out: ${place}`); });
    if (!document.documentElement.lang || !document.title) wrong.push("the page says its language and its title");
    if (document.querySelectorAll("main").length !== 1) wrong.push("there is one main part");
    return wrong;
})()"""
# Texts whose colour is too near to that of what they stand on.
CONTRAST = """(() => {
    const parts = (colour) => colour.match(/[0-9.]+/g).map(Number);
    const light = (colour) => {
        const [r, g, b] = parts(colour).slice(0, 3).map((one) => (one /= 255) <= 0.03928 ? one / 12.92 : ((one + 0.055) / 1.055) ** 2.4);
        return 0.2126 * r + 0.7152 * g + 0.0722 * b;
    };
    const paper = (one) => {
        for (let room = one; room; room = room.parentElement) {
            const colour = getComputedStyle(room).backgroundColor;
            if ((parts(colour)[3] ?? 1) > 0) return colour;
        }
        return "rgb(255, 255, 255)";
    };
    const told = [];
    for (const one of document.querySelectorAll("body *")) {
        const has_text = [...one.childNodes].some((node) => node.nodeType === 3 && node.textContent.trim());
        if (!has_text || !one.checkVisibility() || one.closest("[aria-disabled=true], :disabled, svg, script, style")) continue;
        const [a, b] = [light(getComputedStyle(one).color), light(paper(one))].sort((x, y) => y - x);
        const contrast = (a + 0.05) / (b + 0.05);
        if (contrast < 4.5) told.push(`${one.tagName} ${one.id || one.className} ${contrast.toFixed(2)}`);
    }
    return told;
})()"""


class Looks(InJob):
    def states(self):
        """The page in each of its states, by name."""
        yield "start"
        self.choose_job("a sum by eight tasks")
        for _ in range(60):
            self.click("job_forth")
        yield "under way"
        self.choose_job("spawns that are refused")
        for _ in range(6):
            self.click("job_forth")
        yield "a refused spawn"
        for order in ("random", "schedule"):
            self.tab.evaluate(f"document.getElementById('job_order').value = '{order}'; document.getElementById('job_order').onchange()")
            yield order
        self.tab.evaluate("document.getElementById('job_order').value = 'turn'; document.getElementById('job_order').onchange()")
        self.click("job_all")
        yield "over"
        self.choose_job("refused: a program")
        yield "refused"
        self.click("tab_program")
        self.choose("Internet checksum")
        self.click("run")
        yield "one program"

    def test_rules_of_access(self):
        for name in self.states():
            with self.subTest(name):
                self.assertEqual(self.tab.evaluate(RULES), [])

    def test_the_rules_find_what_is_wrong(self):
        for spoil, rule in (
                ("job_tree.ariaLabel = ''", "such a role has a name: UL job_tree"),
                ("job_start.textContent = ' '", "a control has a name: BUTTON job_start"),
                ("task_0.setAttribute('role', 'listitem')", "it has nothing but treeitems: UL job_tree"),
                ("task_0.ariaLevel = null", "a row says its level and whether it is chosen: LI task_0"),
                ("task_0.tabIndex = -1", "one of the parts is in the order of the Tab key: UL job_tree"),
                ("job_at.tabIndex = 3", "no order of its own: INPUT job_at"),
                ("job_part.removeAttribute('role')", "what takes the focus has a role: PRE job_part"),
                ("job_task_name.id = 'job_bar'", "an id stands once: job_bar"),
                ("job_stepper.ariaHidden = 'true'", "what is hidden from readers takes no focus: DIV job_stepper"),
                ("document.documentElement.lang = ''", "the page says its language and its title")):
            with self.subTest(rule):
                self.tab.load(self.address + "#view=job")
                self.tab.evaluate(f"window.{spoil}; 0" if not spoil.startswith("document") else f"{spoil}; 0")
                self.assertIn(rule, self.tab.evaluate(RULES))
        self.tab.evaluate("job_told.style.color = '#999'; 0")
        self.assertEqual([one.split()[:2] for one in self.tab.evaluate(CONTRAST)], [["P", "job_told"]])

    def test_contrast(self):
        for scheme in ("light", "dark"):
            self.tab.colours(scheme)
            for name in self.states():
                with self.subTest(scheme=scheme, state=name):
                    self.assertEqual(self.tab.evaluate(CONTRAST), [])

    def test_a_narrow_screen(self):
        self.tab.size(*NARROW)
        for name in self.states():
            with self.subTest(name):
                self.assertLessEqual(self.tab.evaluate("document.documentElement.scrollWidth - innerWidth"), 0)
                self.picture(f"job_narrow_{name.replace(' ', '_')}")

    def order_of_tab(self):
        """Where the Tab key leads, from the first tab on."""
        self.tab.evaluate("document.getElementById('tab_job').focus()")
        found = []
        for _ in range(60):
            self.tab.press("Tab", 0, 9)
            name = self.tab.evaluate("document.activeElement.id || document.activeElement.ariaLabel || document.activeElement.className")
            if not name or name in ("tab_job", found[:1]):
                break
            found.append(name)
        return found

    def test_the_order_of_tab(self):
        reached = self.order_of_tab()
        wanted = ["job_examples", "job_share", "Program 0, the root's as eBPF assembly", "job_need", "Remove program 0",
                  "Program 1 as eBPF assembly", "job_need", "Remove program 1", "job_add", "job_credit", "job_buffer", "job_start",
                  "job_stepper", "job_first", "job_back", "job_forth", "job_last", "job_at", "job_one", "job_all", "job_order",
                  "task_0", "job_part"]
        self.assertEqual(reached[: len(wanted)], wanted)

    def test_a_click_beside_a_text_leads_into_it(self):
        for room, field in (("#editor", "source"), ("#job_programs .source", "Program 0, the root's as eBPF assembly")):
            self.click("tab_program" if room == "#editor" else "tab_job")
            self.tab.evaluate(f"document.querySelector('{room}').focus()")
            self.assertEqual(self.tab.evaluate("document.activeElement.id || document.activeElement.ariaLabel"), field)

    def test_the_focus_is_seen(self):
        for name in ("tab_job", "job_examples", "job_share", "job_credit", "job_start", "job_stepper", "job_forth", "job_order", "job_all",
                     "task_0", "job_part"):
            self.tab.evaluate("document.getElementById('tab_job').focus()")
            self.tab.press("Shift", 0, 16)
            self.tab.evaluate(f"document.getElementById('{name}').focus()")
            outline = self.tab.evaluate("(() => { const style = getComputedStyle(document.activeElement);"
                                        "return [document.activeElement.id, style.outlineStyle, parseFloat(style.outlineWidth)]; })()")
            with self.subTest(name):
                self.assertEqual(outline[0], name)
                self.assertNotEqual(outline[1], "none")
                self.assertGreaterEqual(outline[2], 2)

    def test_by_keyboard_alone(self):
        """From the view's tab to the answer, by keys."""
        self.tab.load(self.address)
        self.tab.evaluate("document.getElementById('tab_program').focus()")
        self.tab.press("ArrowRight", 0, 39)
        self.assertEqual(self.tab.evaluate("[document.activeElement.id, document.getElementById('job_view').hidden]"), ["tab_job", False])
        self.tab.press("Home", 0, 36)
        self.assertEqual(self.tab.evaluate("[document.activeElement.id, document.getElementById('job_view').hidden]"), ["tab_program", True])
        self.tab.press("ArrowLeft", 0, 37)
        self.assertEqual(self.tab.evaluate("document.activeElement.id"), "tab_job")
        self.tab.evaluate("document.getElementById('job_stepper').focus()")
        for _ in range(7):
            self.tab.press("ArrowRight", 0, 39)
        self.tab.press("ArrowLeft", 0, 37)
        self.assertEqual(self.tab.evaluate("[job_run.at, job_run.steps.length]"), [6, 7])
        self.tab.evaluate("document.getElementById('task_0').focus()")
        chosen = []
        for key, code in (("ArrowDown", 40), ("ArrowDown", 40), ("ArrowUp", 38), ("ArrowRight", 39), ("ArrowLeft", 37), ("End", 35), ("Home", 36)):
            self.tab.press(key, 0, code)
            chosen.append(self.tab.evaluate("document.activeElement.dataset.number"))
        self.assertEqual(chosen, ["1", "1", "0", "1", "0", "1", "0"])
        self.tab.press("End", 0, 35)
        for _ in range(3):
            self.tab.press("Enter", 0, 13)
        self.assertEqual(self.text("job_told"), "step 9: task 1, slot 2: exit; task 1 ends with R0 0")
        self.assertEqual(self.tab.evaluate("document.activeElement.id"), "task_1")
        self.tab.press("Enter", CTRL | SHIFT, 13)
        self.assertFalse(self.is_hidden("job_answer"))
        self.tab.press("Enter", CTRL, 13)
        self.assertEqual(self.tab.evaluate("[job_run.at, job_run.steps.length]"), [0, 0])

    def test_live_regions(self):
        """What changes by itself is told: the verdict, each step, and the answer."""
        regions = "[...document.querySelectorAll('#job_view [role=status]')].map((one) => one.id)"
        self.assertEqual(self.tab.evaluate(regions), ["job_shared", "job_verdict", "job_mend", "job_told", "job_same"])
        script = """(async () => {
            const told = [];
            const watcher = new MutationObserver((changes) => told.push(...changes.map((one) => one.target.textContent)));
            watcher.observe(document.getElementById("job_told"), { childList: true, characterData: true, subtree: true });
            for (let n = 0; n < 3; n++) document.getElementById("job_forth").click();
            await new Promise((done) => setTimeout(done, 0));
            watcher.disconnect();
            return told.length >= 3 && document.getElementById("job_told").textContent;
        })()"""
        self.assertEqual(self.tab.evaluate(script), "step 3: task 0, slot 2: mov64 r2, 10")

    @unittest.skipUnless(BROWSER == "chromium", "it asks Chromium")
    def test_what_chromium_tells_a_reader(self):
        for _ in range(7):
            self.click("job_forth")
        nodes = self.tab.call("Accessibility.getFullAXTree")["nodes"]
        told = [(node["role"]["value"], node.get("name", {}).get("value", "")) for node in nodes if not node["ignored"]]
        for role, name in (("tablist", "Views"), ("tab", "A job"), ("tabpanel", "A job"), ("region", "Job"), ("region", "Tasks"),
                           ("group", "Steps of the job"), ("tree", "Tasks"), ("group", "Program 0, the root's"),
                           ("textbox", "Program 0, the root's as eBPF assembly"), ("slider", "Step of the job"),
                           ("combobox", "Order"), ("button", "Step task 1"), ("group", "Registers of the task")):
            with self.subTest(role=role, name=name):
                self.assertIn((role, name), told)
        items = [name for role, name in told if role == "treeitem"]
        self.assertEqual(len(items), 2)
        self.assertTrue(items[1].startswith("task 1 /1 program 1, next: slot 1: mov64 r0, 0 used 1 of 10 held bytes 4 to 7"), items)
        images = [name for role, name in told if role in ("image", "img")]
        self.assertIn("held 34, returned 0, spent 0, of 34", images)
        self.assertIn("The buffer: task 0 bytes 0 to 3, task 1 bytes 4 to 7", images)


class OldBrowsers(InBrowser):
    """A browser without what the library needs is told so, with those that have it."""

    def unable(self, script):
        self.tab.evaluate(f"{script}; delete document.documentElement.dataset.ready; start()")
        return self.text("verdict")

    def test_no_memory_of_64_bits(self):
        told = self.unable("WebAssembly.validate = () => false")
        self.assertEqual(told, "The WebAssembly of this browser has no memory of 64 bits, which the library needs. "
                               "Chrome, Chromium and Edge have it from version 133 on, and Firefox from version 134 on.")
        self.assertTrue(self.is_hidden("views"))
        self.picture("no_large_memory")

    def test_no_module(self):
        self.assertIn("no WebAssembly", self.unable("delete globalThis.WebAssembly; 0"))

    def test_no_stream(self):
        self.assertIn("no DecompressionStream", self.unable("delete globalThis.DecompressionStream; 0"))

    def test_a_module_that_is_refused(self):
        self.assertEqual(self.unable("WebAssembly.compile = () => { throw new Error('too large'); }"),
                         "This browser can't run the library: too large")

    def test_the_probe_is_a_module(self):
        self.assertTrue(self.tab.evaluate("WebAssembly.validate(LARGE_MEMORY)"))


if __name__ == "__main__":
    unittest.main()
