"""Tests of the page with the program: runs, statistics, instructions, the meaning, the memory, and a fault that a newcomer mends."""
import re
import time

import content
from page_driver import ENDLESS, RAISE, TOP

# it ends while its dynamic region is open, so the last moment of its run shows that
KEPT = """int main() {
    int sums[2];
    int i = 0;
    let NewDynamicRegion{<`r> key} = new_ukey();
    while (i < 3) {
        region<`r> h = open(key);
        int ?`r kept = rnew(h) {for n < 8u : i};
        sums[i] = kept[7];
        i = i + 1;
    }
    free_ukey(key);
    return 0;
}
"""
# a source that writes without end, and one whose recursion uses up the stack
FLOOD = """int main() {
    int n = 0;
    while (1) { putchar('a' + n % 26); n = n + 1; if (n % 60 == 0) putchar('\\n'); }
    return 0;
}
"""
RECURSION = "int f(int n) { return f(n + 1) + 1; }\nint main() { return f(0); }\n"
# moments.mjs: at least so many moments are looked at, or else for so many seconds
LEAST_MOMENTS, LONGEST_LOOK = 12, 30

def sort_runs(page):
    case = next(it for it in content.cases_of((TOP / "crates/case_runs/data/examples.cases").read_text()) if it.get("file") == "examples/sort.cyc")
    page.choose("#example", "examples/sort.cyc")
    page.state("Accepted")
    page.run()
    page.ended("The program ended by itself")
    assert page.text("pre.output").split() == case["writes"].split(), page.text("pre.output")


def statistics_are_shown(page):
    page.tab("statistics")
    assert "instructions executed" in page.text("#statistics")
    page.shot("statistics")


def steps_are_a_limit(page):
    page.source(ENDLESS)
    page.get("(document.getElementById('steps').value = 100000, 1)")
    page.run()
    page.ended("the steps are used up")
    assert "step limit in main" in page.text("#output"), page.text("#output")
    page.get("(document.getElementById('steps').value = 4294967295, 1)")


def a_flood_leaves_the_page_alive(page):
    page.source(FLOOD)
    page.state("Accepted")
    page.run()
    page.until("document.querySelector('pre.output').innerText.length >= 100000", "as much output as is shown")
    page.click("#stop")
    page.ended("You stopped it")
    text = page.text("pre.output")
    assert "more, which isn't shown" in text and len(text) < 110000, f"{len(text)} characters, at the end {text[-40:]}"


def a_lack_is_told_in_words(page):
    page.tab("output")
    page.source(RECURSION)
    page.state("Accepted")
    page.run()
    page.ended("More stack pages may help")
    wanted = r"call of f, at line 1, column 23, 56 times\s+and \d+ calls between\s+call of f, at line 1, column 23, 7 times\s+call of f, at line 2, column 21$"
    assert re.search(wanted, page.text(".calls").strip()), page.text(".calls")
    assert page.text("pre.output") == "Nothing was written.", page.text("pre.output")
    page.shot("exhausted")


def meaning_agrees(page):
    page.choose("#example", "examples/queens.cyc")
    page.state("Accepted")
    page.tab("output")
    page.run()
    page.ended("The program ended by itself")
    page.tab("meaning")
    page.press_button("Evaluate the source")
    page.until("document.querySelector('#meaning .same') !== null", "the meaning is the image's")
    page.shot("meaning")


def instructions_are_lit(page):
    page.choose("#example", "examples/queens.cyc")
    page.tab("instructions")
    page.listed()
    texts = page.value().split("\n")
    line = next(number for number, it in enumerate(texts, 1) if "show(" in it and "void" not in it)
    page.go_to_line(line)
    lit = page.get("[...document.querySelectorAll('table.code tr.lit')].map(it => [it.classList.contains('place'), it.innerText])")
    assert any("call of show" in text for is_place, text in lit if not is_place), f"the call is lit: {lit}"
    places = [text for is_place, text in lit if is_place]
    assert places and all(re.match(rf"{line}:\d+ ", it) and texts[line - 1].strip() in it for it in places), places
    assert page.get("[...document.querySelectorAll('#editor .line')].findIndex(it => it.classList.contains('lit'))") == line - 1
    page.shot("instructions")
    page.tab("output")
    assert page.get("document.querySelectorAll('#editor .line.lit').length") == 0, "no line stays lit"


def a_check_is_lit_with_its_line(page):
    """Of an index all is lit: what is compared, the check, and the load."""
    page.source(RAISE)
    page.state("Accepted")
    page.tab("instructions")
    page.listed()
    page.go_to_line(2)
    lit = page.get("[...document.querySelectorAll('table.code tr.lit:not(.place)')].map(it => it.innerText)")
    for what in ("Array_bounds", r"\b(bltu|bgeu) ", r"\blw "):
        assert any(re.search(what, it) for it in lit), f"{what}: {lit}"
    page.shot("check")
    page.tab("output")


def memory_is_a_picture(page):
    page.tab("output")
    page.source(KEPT)
    page.state("Accepted")
    page.run()
    page.ended("an index is outside")
    began = time.time()
    page.tab("memory")
    count = page.pictured()
    assert count >= LEAST_MOMENTS or time.time() - began >= LONGEST_LOOK, f"{count} moments in {time.time() - began:.0f} seconds"
    page.get("(document.getElementById('moment').focus(), 1)")
    page.used.press("End")
    page.until("document.querySelector('#memory .legend').innerText.includes('dynamic region')", "the dynamic region, at the last moment")
    assert page.get("document.querySelectorAll('#memory .cell').length") > 0
    assert re.match(r"Step \d+ in main\. The stack is [1-9]", page.text("#memory .moment")), page.text("#memory .moment")
    page.shot("memory")
    page.used.press("Home")
    page.until("document.querySelector('#memory .moment').innerText.startsWith('Step 0')", "the first moment, by the keyboard")


def a_lesson_is_gone_through(page):
    page.tab("output")
    page.choose("#chapter", "lesson 4")
    page.press_button("Load examples/tutorial_request.cyc")
    page.state("Accepted")
    page.run()
    page.ended("main returned 0")
    assert page.text("pre.output").split("\n")[0].strip() == "three two one", page.text("pre.output")
    page.press_button("Load the rejected source")
    page.state("1 fault")
    assert "Outlives" in page.text("#faults"), page.text("#faults")
    page.shot("outlives")
    page.press_button("Load the accepted one")
    page.state("Accepted")
    page.shot("mended")


def an_outlives_is_mended(page):
    """What a newcomer does by the mouse and keys alone: opens the page, looks at the fault, goes to it, mends it as the page says, and runs it."""
    page.used.size(1280, 800)
    page.open()
    page.state("Accepted")
    page.point_at("#guide button", "Show a pointer that is rejected")
    page.state("1 fault")
    words = page.text(".beside")
    assert words == "Outlives: `r must outlive `H, the heap.", words
    assert page.get("((it) => it.scrollWidth <= it.clientWidth)(document.querySelector('.beside'))"), "all words beside the line are seen"
    told = page.value().split("\n")
    assert "int *p" in told[1] and "p = rnew" in told[4], "the lines that the page names"
    page.shot("newcomer_fault")
    page.point_at("#faults li button.link", "line 4")
    page.stands_at("`r", "the words lead to the region")
    page.point_at("#faults li button", "Outlives")
    page.stands_at("rnew", "the click goes to the fault")
    page.shot("newcomer_at_it")
    page.select_line(2)
    page.type("    int n = 0;")
    page.until("document.querySelector('.beside')?.innerText.includes('p is unknown')", "the next fault")
    page.select_line(5)
    page.type("        int *`r p = rnew(h) 3;\nn = *p;")
    page.until("document.querySelector('.beside')?.dataset.line === '8'", "the fault of the last line")
    page.shot("newcomer_at_last_line")
    page.point_into(8, 14)
    for key in ("Backspace", "Backspace", "n"):
        page.used.press(key)
    page.state("Accepted")
    assert page.get("document.querySelector('.beside')") is None, "the words are gone"
    page.used.press("Enter", control=True)
    page.ended("main returned 3")
    page.shot("newcomer_mended")
    page.used.size(1440, 900)


def states_are_light_and_dark(page):
    for scheme in ("light", "dark"):
        page.used.scheme(scheme)
        page.choose("#example", "examples/tutorial_service.cyc")
        page.state("Accepted")
        page.run()
        page.ended("The program ended by itself")
        page.check_contrast(f"{scheme}, ended")
        page.tab("memory")
        page.pictured()
        page.check_contrast(f"{scheme}, memory")
        page.shot(f"{scheme}_memory")
        page.tab("instructions")
        page.listed()
        page.cursor(page.value().index("main("))
        page.check_contrast(f"{scheme}, instructions")
        page.tab("output")
        page.source(RAISE)
        page.state("Accepted")
        page.run()
        page.ended("an index is outside")
        page.check_contrast(f"{scheme}, raised")
        page.shot(f"{scheme}_raise")
    page.used.scheme("light")
