"""Tests of the page's own parts: the editor, its colours, what one reads, links, keys and screens. They need no compiler: the stub's answers are enough."""
import content
from page_driver import ENDLESS, LISTED, LIT, RAISE, TOP

COLOURED = """// a note
char ?`r text(char ?`r it) {
    if (it == NULL) putchar('a');
    return "b\\n";
}
"""
# the class that the grammar gives to each of these tokens of that source
CLASSES = {"// a note": "comment-line-double-slash", "char": "storage-type", "`r": "entity-name-type-region", "text": "entity-name-function",
           "if": "keyword-control", "NULL": "constant-language", "putchar": "support-function", "'a'": "string-quoted-single", "return": "keyword-control"}


def faults_come_and_go(page):
    page.state("Accepted")
    page.cursor(0)
    page.type("int f() { return m; }\n")
    page.state("1 fault")
    page.until("document.querySelector('.line .fault')?.innerText === 'm'", "the name underlined")
    page.until("document.querySelector('.beside')?.innerText.startsWith('Name')", "the words beside")
    page.cursor(99)
    page.click("#faults li button")
    page.stands_at("m;", "the click goes to the fault")
    page.cursor(99)
    page.point_at(".beside", "Name")
    page.stands_at("m;", "so does a click on the words beside the line")
    page.shot("fault")
    page.type("1")
    page.state("Accepted")
    assert page.get("document.querySelectorAll('.fault').length") == 0, "no mark is left"


def hello_runs(page):
    page.choose("#example", "examples/hello.cyc")
    page.state("Accepted")
    page.get("(document.getElementById('source').focus(), 1)")
    page.used.press("Enter", control=True)
    page.ended("main returned 0")
    assert page.text("pre.output") == "hello, world\n" or page.text("pre.output").strip() == "hello, world", page.text("pre.output")
    page.shot("hello")


def a_raise_is_marked(page):
    page.tab("output")
    page.source(RAISE)
    page.state("Accepted")
    page.run()
    page.ended("an index is outside")
    assert page.text("pre.output").strip() == "000", page.text("pre.output")
    lines = page.get("[...document.querySelectorAll('#editor .line')].map(it => it.className.trim())")
    assert lines[1] == "line stopped" and lines[7] == "line called", lines
    assert "line 2, column 14" in page.text(".calls") and "call of at" in page.text(".calls"), page.text(".calls")
    page.click(".calls button")
    page.stands_at("i];", "the click goes to the index")
    page.shot("raise")


def an_endless_run_is_stopped(page):
    page.source(ENDLESS)
    page.state("Accepted")
    page.run()
    page.until("!document.getElementById('stop').disabled", "Stop can be pressed")
    page.pause(700)
    assert page.get("1 + 1") == 2, "the page answers"
    page.shot("endless")
    page.click("#stop")
    page.ended("You stopped it")
    page.shot("stopped")
    hello_runs(page)

# the first text outside of code that still has marks of Markdown
RAW = """[...document.querySelectorAll('#guide .reading p, #guide .reading td')].flatMap(it => [...it.childNodes]).filter(it => it.nodeType === 3)
    .map(it => it.data).filter(it => /^#+ |`|^- |[*][*]|\\]\\(/.test(it))[0] ?? ''"""


def keys_run_and_stop(page):
    page.source(ENDLESS)
    page.state("Accepted")
    page.press_at("#run", "Enter")
    page.until("document.activeElement.id === 'stop'", "the focus is at Stop")
    page.used.press(" ")
    page.ended("You stopped it")
    assert page.get("document.activeElement.id") == "run", "and at Run again"


def tokens_are_coloured(page):
    page.source(COLOURED)
    pairs = page.get("[...document.querySelectorAll('#editor .line span')].map(it => [it.textContent, it.className])")
    for token, kind in CLASSES.items():
        assert [token, kind] in pairs, f"{token} isn't {kind}: {pairs}"
    shown = page.get("[...document.querySelectorAll('#editor .line')].map(it => it.innerText.replaceAll('\\u200b', '')).join('\\n')")
    assert shown == COLOURED, shown
    page.source("/* one\ntwo */ int\n")
    lines = page.get("[...document.querySelectorAll('#editor .line')].map(it => it.firstChild.className)")
    assert lines[:2] == ["comment-block", "comment-block"], lines


def enter_keeps_the_indentation(page):
    page.source("int main() {")
    page.cursor(12)
    page.type("\nreturn 1;\nreturn 2;")
    assert page.value() == "int main() {\n    return 1;\n    return 2;", page.value()


def a_line_and_its_instructions_are_lit(page):
    page.source(LISTED)
    page.state("Accepted")
    page.tab("instructions")
    page.listed()
    lit = {line: page.lit_by(line) for line in range(1, LISTED.count("\n") + 1)}
    for line, word in ((7, "50"), (8, "call of twice"), (9, "48"), (12, "")):
        it = lit[line]
        assert any(word in text for _, text in it["code"]), f"line {line}: {it}"
        lines = [9, 10] if line == 9 else [line]
        assert it["lines"] == lines and {int(text.split(":")[0]) for text in it["places"]} == {*lines}, f"line {line}: {it}"
    assert lit[10] == lit[9], "a statement of two lines is one"
    for line in (3, 4, 11):
        assert lit[line] == {"code": [], "places": [], "lines": []}, f"line {line}: {lit[line]}"
    # (before the first statement of a function its frame is made)
    own = [at for line in (6, 7, 8, 9, 12) for at, _ in lit[line]["code"]]
    first = page.get("[...document.querySelectorAll('table.code tr')].findIndex(it => it.innerText.startsWith('6:'))")
    code = page.get("[...document.querySelectorAll('table.code tr')].flatMap((it, at) => it.classList.contains('place') ? [] : [at])")
    assert sorted(own) == [it for it in code if it > first], "each instruction of main is of one line"
    page.go_to_line(7)
    page.shot("lit")


def an_instruction_leads_to_its_line(page):
    page.source(LISTED)
    page.tab("instructions")
    page.listed()
    for word, line in ((" 50", 7), ("call of twice", 8), (" 48", 9), ("7:", 7)):
        page.cursor(0)
        page.show_row(word)
        page.point_at("table.code tr", word)
        page.until("document.activeElement.id === 'source'", "the click goes to the source")
        page.pause()
        assert page.cursor_line() == line, f"{word} leads to line {page.cursor_line()}"
        assert line in page.lit()["lines"], f"{word}: {page.lit()}"
    page.go_to_line(12)
    page.show_row("call of twice")
    x, y = page.place_of("table.code tr", "call of twice")
    page.used.move(x, y - 40)
    page.used.move(x, y)
    page.until(f"{LIT}.lines.join() === '8'", "pointing at an instruction lights its line")
    assert page.cursor_line() == 12, "and goes nowhere"
    page.go_to_line(7)
    page.get("(document.querySelector('.listing').focus(), 1)")
    page.used.press("ArrowDown")
    assert page.get("document.activeElement.className") == "lit", "the keys begin at the first instruction that is lit"
    page.used.press("ArrowUp")
    assert page.lit()["lines"] == [6], page.lit()
    page.used.press("Enter")
    assert page.cursor_line() == 6 and page.get("document.activeElement.id") == "source"


def instructions_follow_the_text(page):
    page.source(LISTED)
    page.tab("instructions")
    page.listed()
    page.source(LISTED.replace("return 0", "return unknown"))
    page.until("document.querySelector('.listing').innerText.includes('rejected')", "no instructions of a rejected source")
    page.source(f"\n{LISTED}")
    page.listed("the instructions of the new text")
    page.tab("output")
    assert page.lit()["lines"] == [], "no line stays lit"


def documents_are_shown(page):
    for name in content.DOCUMENTS:
        page.choose("#chapter", f"document {name}.md")
        text = page.text("#guide .reading")
        assert len(text) > 500 and not page.get(RAW), f"{name}.md is shown as {text[:200]}, with {page.get(RAW)}"
    page.choose("#chapter", "document TUTORIAL.md")
    assert page.get("document.querySelectorAll('#guide table').length") > 0 and page.get("document.querySelectorAll('#guide pre').length") > 0
    page.get("([...document.querySelectorAll('#guide .reading button.link')].find(it => it.innerText.includes('FAULTS.md')).click(), 1)")
    assert page.get("document.getElementById('chapter').value") == "document FAULTS.md", "a link leads to the document"
    page.shot("document")


def examples_are_loaded_whole(page):
    for name, it in content.examples(TOP).items():
        page.choose("#example", name)
        assert page.value() == it["source"], name
        given = it.get("input", "").replace("\r\n", "\n")
        assert page.get("document.getElementById('input').value") == given and page.text("#name") == name, name
        assert page.get("Number(document.getElementById('pages').value)") == it.get("pages", 1024), name
    page.state("Accepted")


def limits_out_of_range_are_told(page):
    page.choose("#example", "examples/hello.cyc")
    for wrong in ("5000", "", "1.5"):
        page.set("pages", wrong)
        said = page.text("#limited")
        assert said == "Pages: a whole number from 1 to 4,096. A run takes 1,024 now.", f"{wrong}: {said}"
        assert page.get("document.getElementById('pages').getAttribute('aria-invalid')") == "true"
    page.check_contrast("a limit out of range")
    page.shot("limits")
    page.set("pages", "4096")
    assert page.text("#limited") == "" and page.get("document.getElementById('pages').getAttribute('aria-invalid')") == "false"
    page.set("pages", "1024")


def a_run_is_seen(page):
    """From the instructions a run leads to its output; statistics are looked at on."""
    hello_runs(page)
    for tab, shown in (("instructions", "output"), ("meaning", "output"), ("statistics", "statistics"), ("memory", "memory")):
        page.tab(tab)
        page.run()
        page.ended("main returned 0")
        assert not page.get(f"document.getElementById('{shown}').hidden"), f"{tab}: {shown} is hidden"
    page.tab("output")


def a_theme_is_chosen(page):
    before = page.get("document.documentElement.dataset.theme")
    page.click("#theme")
    assert page.get("document.documentElement.dataset.theme") != before
    page.click("#theme")
    assert page.get("document.documentElement.dataset.theme") == before


def every_lesson_holds(page):
    for index, lesson in enumerate(content.lessons(TOP)):
        page.choose("#chapter", f"lesson {index}")
        for which in range(len(lesson["rows"])):
            for kind, wanted in (("rejected source", "fault"), ("accepted one", "Accepted")):
                page.get(f"([...document.querySelectorAll('#guide button')].filter(it => it.innerText === 'Load the {kind}')[{which}].click(), 1)")
                page.state(wanted)


def a_link_holds_the_source(page):
    page.source(RAISE)
    page.click("#link")
    page.until("location.hash.startsWith('#program=')", "the address has the source")
    hash = page.get("location.hash")
    page.open(hash)
    assert page.value() == RAISE


def contrast_is_enough(page):
    page.source(RAISE + "int g() { return unknown; }\n")
    page.state("1 fault")
    for scheme in ("light", "dark"):
        page.used.scheme(scheme)
        for name in ("output", "statistics", "instructions", "meaning", "memory"):
            page.tab(name)
            page.check_contrast(f"{scheme}, {name}")
        page.tab("output")
        for name in ("lesson 2", "document FAULTS.md", "document GRAMMAR.md", "start"):
            page.choose("#chapter", name)
            page.check_contrast(f"{scheme}, {name}")
    page.shot("dark")
    page.used.scheme("light")


def keyboard_suffices(page):
    page.open()
    seen = []
    for _ in range(60):
        page.used.press("Tab")
        it = page.get("document.activeElement.id || document.activeElement.className || document.activeElement.tagName")
        seen.append(it)
        if it == "tab_output":
            break
    for wanted in ("example", "link", "theme", "chapter", "run", "source", "input", "pages", "tab_output"):
        assert wanted in seen, f"{wanted} isn't reached: {seen}"
    page.used.press("ArrowRight")
    assert page.get("document.activeElement.id") == "tab_statistics" and not page.get("document.getElementById('statistics').hidden")
    page.used.press("ArrowLeft")
    page.source("int main() { return one; }\n")
    page.state("1 fault")
    page.used.press("F8")
    page.stands_at("one;", "F8 goes to the fault")
    assert page.get("document.activeElement.id") == "source"
    page.press_at("#guide button", "Enter")
    page.state("1 fault")
    page.press_at("#tab_instructions", " ")
    assert not page.get("document.getElementById('instructions').hidden"), "Space chooses the tab"
    page.tab("output")


# whether a part is seen whole within another
SEEN = """((it, box) => {
    const [inner, outer] = [it, box].map((part) => part.getBoundingClientRect());
    return outer.top - 1 <= inner.top && inner.bottom <= outer.bottom + 1;
})"""


def narrow_screens_do(page):
    page.used.size(390, 844)
    page.open()
    page.state("Accepted")
    for width in (320, 390):
        page.used.size(width, 844)
        page.pause()
        wide = page.get("[document.scrollingElement.scrollWidth, innerWidth]")
        assert wide[0] <= wide[1] == width, f"the page is {wide[0]} wide on a screen of {wide[1]}"
        assert page.get("document.getElementById('tab_memory').getBoundingClientRect().right") <= width, "each tab is seen"
    page.shot("narrow")
    page.get("(document.getElementById('writing').scrollIntoView(), 1)")
    page.shot("narrow_source")
    page.run()
    page.ended("main returned 0")
    bottom = page.get("document.querySelector('#output .ending').getBoundingClientRect().bottom")
    assert 0 < bottom <= 844, f"the ending is seen: its bottom is at {bottom}"
    page.shot("narrow_run")
    page.get("(document.getElementById('results').scrollIntoView(), 1)")
    page.shot("narrow_results")
    page.source(LISTED)
    page.tab("instructions")
    page.listed()
    page.go_to_line(8)
    assert page.get(f"{SEEN}(document.querySelector('table.code tr.lit'), document.querySelector('.listing'))"), "what is lit is seen in its list"
    page.get("(document.getElementById('instructions').scrollIntoView(), 1)")
    page.shot("narrow_instructions")
    page.tab("output")
    page.used.size(820, 1100)
    page.shot("medium")
    page.used.size(1440, 900)


def nothing_more_is_fetched(page):
    before = page.get("performance.getEntriesByType('resource').filter(it => !it.name.startsWith('blob:')).length")
    an_endless_run_is_stopped(page)
    after = page.get("performance.getEntriesByType('resource').filter(it => !it.name.startsWith('blob:')).length")
    assert before == after, f"{after - before} more were fetched"


def no_error_was_thrown(page):
    assert not page.used.errors, page.used.errors
