"""The page in a browser: what is on it, and what one does to it. And the sources that the tests of the page type."""
import json
import pathlib
import time

import browser

TOP = pathlib.Path(__file__).resolve().parent.parent

RAISE = """int at(int ?`r a, int i) {
    return a[i];
}

int main() {
    int a[3];
    int i = 0;
    while (i < 4) { putchar('0' + at(a, i)); i = i + 1; }
    return 0;
}
"""
ENDLESS = """int main() {
    int n = 0;
    while (1) { n = n + 1; }
    return n;
}
"""

LISTED = """int twice(int n) {
    return n + n;
}

int main() {
    int n = 1;
    while (n < 50) {
        n = twice(n);
        putchar('0'
            + twice(n) % 10);
    }
    return 0;
}
"""

LEAST_CONTRAST = 4.5
# of all text that is seen, or would be if it were selected, the one with the least contrast to what lies under it
CONTRAST = """(() => {
    const parts = (text) => { const it = text.match(/[\\d.]+%?/g)?.map(parseFloat) ?? [0, 0, 0, 0]; return it.length < 4 ? [...it, 1] : it; };
    const over = (top, under) => [0, 1, 2].map((at) => top[at] * top[3] + under[at] * (1 - top[3])).concat(1);
    const back = (it) => {
        const found = [];
        for (let at = it; at; at = at.parentElement) found.push(parts(getComputedStyle(at).backgroundColor));
        return found.reverse().reduce((under, top) => over(top, under), [255, 255, 255, 1]);
    };
    const linear = (v) => (v /= 255) <= 0.04045 ? v / 12.92 : ((v + 0.055) / 1.055) ** 2.4;
    const light = ([r, g, b]) => 0.2126 * linear(r) + 0.7152 * linear(g) + 0.0722 * linear(b);
    let least = { ratio: 99 };
    const compare = (colour, under, text, kind) => {
        const [a, b] = [light(over(parts(colour), under)), light(under)].sort((x, y) => y - x), ratio = (a + 0.05) / (b + 0.05);
        if (ratio < least.ratio) least = { ratio, text: text.trim().slice(0, 40), kind };
    };
    const walker = document.createTreeWalker(document.body, NodeFilter.SHOW_TEXT);
    while (walker.nextNode()) {
        const it = walker.currentNode.parentElement;
        if (!walker.currentNode.data.trim() || !it.checkVisibility() || it.id === 'source' || it.closest('.skip, .sr, option')) continue;
        compare(getComputedStyle(it).color, back(it), walker.currentNode.data, it.tagName + '.' + it.className);
    }
    const { color, backgroundColor } = getComputedStyle(document.getElementById('source'), '::selection');
    for (const it of document.querySelectorAll('#editor .line')) {
        compare(color, over(parts(backgroundColor), back(it)), it.innerText, 'selected ' + it.className);
    }
    return least;
})()"""
# where a column of a line of the source is seen, which no word beside it moves
PLACE = """((line, column) => {
    const row = document.querySelectorAll('#editor .line')[line - 1];
    const walker = document.createTreeWalker(row.querySelector('.code') ?? row, NodeFilter.SHOW_TEXT);
    let left = column - 1;
    while (walker.nextNode() && left > walker.currentNode.length) left -= walker.currentNode.length;
    const range = document.createRange();
    range.setStart(walker.currentNode, left);
    const { x, y, height } = range.getBoundingClientRect();
    return [x, y + height / 2];
})"""

# the rows of the instructions that are lit, those of the positions between them, and the numbers of the lines that are lit in the editor
LIT = """(() => {
    const rows = [...document.querySelectorAll('table.code tr')].map((it, at) => [at, it.innerText.replace(/\\s+/g, ' ').trim(), it.classList]);
    const lit = rows.filter(([,, kinds]) => kinds.contains('lit'));
    const lines = [...document.querySelectorAll('#editor .line')].flatMap((it, at) => it.classList.contains('lit') ? [at + 1] : []);
    const named = (isPlace) => lit.filter(([,, kinds]) => kinds.contains('place') === isPlace).map(([at, text]) => isPlace ? text : [at, text]);
    return { code: named(false), places: named(true), lines };
})()"""


class Page:
    """The page in a browser: what is on it, and what one does to it."""

    def __init__(self, used, address, shots, seconds):
        self.used, self.address, self.shots, self.end = used, address, shots, time.time() + seconds

    def left(self):
        """How many seconds are left for all that is tried."""
        return self.end - time.time()

    def open(self, hash=""):
        self.used.open("about:blank")
        self.used.open(f"{self.address}index.html{hash}")
        self.until("document.body.classList.contains('ready')", "the page is ready")

    def get(self, expression):
        return self.used.evaluate(expression)

    def until(self, condition, what, seconds=90):
        if self.left() < 1:
            raise browser.Late(f"no time is left: {what}")
        return self.used.wait(condition, what, min(seconds, self.left()))

    def text(self, where):
        return self.get(f"document.querySelector({json.dumps(where)}).innerText")

    def click(self, where):
        self.get(f"(document.querySelector({json.dumps(where)}).click(), 1)")

    def place_of(self, where, words):
        """The middle of the element that has these words, which has to be on top there. The field of the source lies above words beside a line."""
        self.get(f"(window.at = [...document.querySelectorAll({json.dumps(where)})].find(it => it.innerText.includes({json.dumps(words)})), 1)")
        x, y, width, height = self.settled("((it) => [it.x, it.y, it.width, it.height])(window.at.getBoundingClientRect())")
        x, y = x + width / 2, y + height / 2
        is_top = self.get(f"((top) => window.at.contains(top) || (window.at.matches('.beside') && top.id === 'source'))(document.elementFromPoint({x}, {y}))")
        assert is_top, f"{words} can't be clicked"
        return x, y

    def point_at(self, where, words):
        """Clicks with the mouse on the element that has these words."""
        self.used.click(*self.place_of(where, words))

    def settled(self, expression):
        """The value of an expression when it is the same twice: Firefox scrolls to a new place of the cursor some time after that is set."""
        old = None
        while (value := self.get(expression)) != old:
            old = value
            self.pause(60)
        return value

    def point_into(self, line, column):
        """Clicks with the mouse before a column of a line of the source."""
        self.used.click(*self.settled(f"{PLACE}({line}, {column})"))

    def select_line(self, line):
        """Selects a line of the source by the mouse and keys."""
        self.point_into(line, 1)
        self.used.press("End")
        self.used.press("Home", shift=True)

    def press_at(self, where, key):
        """Presses a key where the focus is at the first such element."""
        self.get(f"(document.querySelector({json.dumps(where)}).focus(), 1)")
        self.used.press(key)

    def press_button(self, words):
        self.get(f"([...document.querySelectorAll('button')].find(it => it.innerText.includes({json.dumps(words)})).click(), 1)")

    def choose(self, where, value):
        change = f"it.value = {json.dumps(value)}; it.dispatchEvent(new Event('change')); return 1;"
        self.get(f"((it) => {{ {change} }})(document.querySelector({json.dumps(where)}))")

    def set(self, name, text):
        """Puts a text into a field, as one who types it."""
        change = f"it.value = {json.dumps(text)}; it.dispatchEvent(new Event('input')); return 1;"
        self.get(f"((it) => {{ {change} }})(document.getElementById('{name}'))")

    def source(self, text):
        self.set("source", text)

    def type(self, text):
        for it in text:
            self.used.press("Enter" if it == "\n" else it)

    def state(self, words, seconds=60):
        self.until(f"document.getElementById('checked').innerText.includes({json.dumps(words)})", f"the state {words}", seconds)

    def run(self):
        self.until("!document.getElementById('run').disabled", "Run can be pressed")
        self.click("#run")

    def ended(self, words):
        self.until(f"document.querySelector('#output .ending').innerText.includes({json.dumps(words)})", f"the ending {words}")

    def pictured(self):
        """Waits until the picture of memory is whole: how many moments it has."""
        made = "document.querySelector('#memory .made').innerText"
        self.until(f"{made}.includes('moments') && !{made}.includes('more to come')", "all moments")
        count = self.get(f"parseInt({made})")
        assert count >= 2 and self.get("Number(document.getElementById('moment').max)") == count - 1, f"{count} moments"
        return count

    def pause(self, moment=150):
        """Lets the page go on for some milliseconds."""
        self.get(f"new Promise((done) => setTimeout(() => done(1), {moment}))")

    def cursor(self, start, end=None):
        """Sets the cursor of the source, or selects up to an end."""
        self.get(f"((it) => {{ it.focus(); it.setSelectionRange({start}, {start if end is None else end}); return 1; }})(document.getElementById('source'))")

    def stands_at(self, words, what):
        """Waits until the cursor of the source stands before these words."""
        self.until(f"((it) => it.value.slice(it.selectionStart).startsWith({json.dumps(words)}))(document.getElementById('source'))", what, 20)

    def cursor_line(self):
        return self.get("((it) => it.value.slice(0, it.selectionStart).split('\\n').length)(document.getElementById('source'))")

    def go_to_line(self, line):
        """Sets the cursor of the source at the beginning of a line, and lets the page follow."""
        self.cursor(sum(len(it) + 1 for it in self.value().split("\n")[:line - 1]))
        self.pause()

    def listed(self, what="the instructions"):
        """Waits for the instructions of the source as it is."""
        self.until("document.querySelector('.listing[aria-busy=false] table') !== null", what)

    def show_row(self, words):
        """Scrolls the list of instructions so that the first row with these words is in its middle."""
        found = f"[...document.querySelectorAll('table.code tr')].find(it => it.innerText.includes({json.dumps(words)}))"
        self.get(f"({found}.scrollIntoView({{ block: 'center' }}), 1)")

    def lit(self):
        return self.get(LIT)

    def lit_by(self, line):
        """What is lit when the cursor stands at a line."""
        self.go_to_line(line)
        return self.lit()

    def value(self):
        return self.get("document.getElementById('source').value")

    def tab(self, name):
        self.click(f"#tab_{name}")

    def check_contrast(self, what):
        """All text that is seen has to stand out from what lies under it."""
        least = self.get(CONTRAST)
        assert least["ratio"] >= LEAST_CONTRAST, f"{what}: {least}"

    def shot(self, name):
        self.pause()
        self.used.shot(self.shots / f"{self.used.name}_{name}.png")
