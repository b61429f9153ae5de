// The output of a run, shown as it comes. What came since the last time is put in at once, so a run that writes without end leaves the page alive.

/** The most characters that are shown. */
const SHOWN = 100000;
/** The milliseconds between two times of showing: at least so many, and five times as many as the last time took. */
const PAUSE = 50;

export class Output {
    constructor(root) {
        this.root = root;
        this.clear();
    }

    clear() {
        clearTimeout(this.timer);
        Object.assign(this, { decoder: new TextDecoder(), waiting: "", taken: 0, bytesLeft: 0, pause: PAUSE, timer: 0 });
        this.root.replaceChildren();
    }

    /** Takes bytes that the program wrote. Those behind the most that is shown are counted. */
    put(bytes) {
        if (this.taken >= SHOWN) {
            this.bytesLeft += bytes.length;
            return;
        }
        const text = this.decoder.decode(bytes, { stream: true });
        this.taken += text.length;
        this.waiting += text;
        if (!this.timer) this.timer = setTimeout(() => this.show(), this.pause);
    }

    show() {
        const began = performance.now();
        clearTimeout(this.timer);
        this.timer = 0;
        if (!this.waiting) return;
        this.root.append(this.waiting);
        this.waiting = "";
        this.root.scrollTop = this.root.scrollHeight;
        this.pause = Math.max(PAUSE, 5 * (performance.now() - began));
    }

    /** Shows the rest at the end of a run, and says what isn't shown: `left` more bytes, where it is known how many. */
    end(left) {
        this.show();
        const count = this.bytesLeft + (left ?? 0), isMore = left === undefined && this.taken >= SHOWN;
        const words = isMore ? "more, which isn't shown" : `and ${count.toLocaleString("en")} bytes more, which are not shown`;
        if (isMore || count) this.root.append(`\n.. ${words}\n`);
        const none = left === undefined ? "No output came before it was stopped." : "Nothing was written.";
        if (!this.taken) this.root.append(Object.assign(document.createElement("span"), { className: "quiet", textContent: none }));
    }
}
