// The page: it loads the program and its texts, and puts the parts together.
import { Editor } from "./editor.mjs";
import { Faults } from "./faults.mjs";
import { Guide } from "./guide.mjs";
import { Instructions } from "./instructions.mjs";
import { packed, unpacked } from "./link.mjs";
import { made } from "./markdown.mjs";
import { Meaning, showStatistics } from "./meaning.mjs";
import { Picture } from "./picture.mjs";
import { Program, workerOf } from "./program.mjs";
import { Running } from "./running.mjs";
import { grammarOf } from "./tokens.mjs";

const DEFAULTS = { input: "", pages: 1024, stackPages: 256, steps: 4294967295 };
const part = (name) => document.getElementById(name);

/** The fields of numbers, each with the range that its number is to be in. */
const RANGES = { pages: [1, 4096], stackPages: [1, 4096], steps: [0, 1e15] };

/** Whether a field has a whole number in its range. */
function isInRange(name) {
    const { value } = part(name), number = Number(value), [least, most] = RANGES[name];
    return value !== "" && Number.isInteger(number) && least <= number && number <= most;
}

/** A number of a field, or what it is by default where it isn't one in range. */
function numberIn(name) {
    return isInRange(name) ? Number(part(name).value) : DEFAULTS[name];
}

/** Marks each field whose number isn't in range, and says what it has to be, and what is taken in its place. */
function limits() {
    const names = Object.keys(RANGES), text = (number) => number.toLocaleString("en-US");
    const told = (name) => {
        const [least, most] = RANGES[name].map(text), label = part(name).parentElement.firstChild.data.trim();
        return `${label}: a whole number from ${least} to ${most}. A run takes ${text(DEFAULTS[name])} now.`;
    };
    for (const name of names) part(name).setAttribute("aria-invalid", String(!isInRange(name)));
    part("limited").textContent = names.filter((it) => !isInRange(it)).map(told).join("\n");
}

/** The files, the input and the limits of a run, as they stand in the page. */
function options(editor) {
    const encoder = new TextEncoder();
    const [pages, stackPages, steps] = ["pages", "stackPages", "steps"].map(numberIn);
    const limits = ["--pages", String(pages), "--stack-pages", String(stackPages)];
    const words = [...limits, "--steps", String(steps), "--ending", "--where", "--stats"];
    return { files: { "program.cyc": encoder.encode(editor.text) }, input: encoder.encode(part("input").value), pages, limits, words, fuel: steps };
}

/** Tabs that the arrow keys go through. `chosen` is called with the panel that comes to be seen. */
function tabs(list, chosen) {
    const all = [...list.querySelectorAll("[role=tab]")];
    const choose = (tab, isFocused) => {
        for (const it of all) {
            const is = it === tab;
            it.setAttribute("aria-selected", String(is));
            it.tabIndex = is ? 0 : -1;
            part(it.getAttribute("aria-controls")).hidden = !is;
        }
        if (isFocused) tab.focus();
        chosen(tab.getAttribute("aria-controls"));
    };
    list.addEventListener("click", (event) => event.target.closest("[role=tab]") && choose(event.target.closest("[role=tab]")));
    list.addEventListener("keydown", (event) => {
        const by = { ArrowRight: 1, ArrowLeft: -1 }[event.key];
        if (!by) return;
        event.preventDefault();
        choose(all[(all.indexOf(document.activeElement) + by + all.length) % all.length], true);
    });
}

/** Light or dark: as the system has it, or as the reader chose. */
function themes() {
    const button = part("theme"), system = matchMedia("(prefers-color-scheme: dark)");
    const set = (theme) => {
        document.documentElement.dataset.theme = theme;
        button.textContent = theme === "dark" ? "Light" : "Dark";
        dispatchEvent(new Event("themed"));
    };
    set(system.matches ? "dark" : "light");
    system.addEventListener("change", () => set(system.matches ? "dark" : "light"));
    button.addEventListener("click", () => set(document.documentElement.dataset.theme === "dark" ? "light" : "dark"));
}

/** What is fetched: once, when the page is opened. */
async function fetched() {
    const get = async (name) => {
        const got = await fetch(new URL(name, import.meta.url));
        if (!got.ok) throw new Error(`${name} isn't there: make it by tools/web`);
        return got;
    };
    const [program, content, ...scripts] = await Promise.all(["cycc.wasm", "content.json", "cycc.mjs", "worker.mjs"].map(get));
    const script = workerOf(await scripts[0].text(), await scripts[1].text());
    return { cycc: { module: await WebAssembly.compile(await program.arrayBuffer()), script }, content: await content.json() };
}

function examples(content, load) {
    const choice = part("example");
    choice.append(...Object.keys(content.examples).map((it) => made("option", { value: it }, it.replace("examples/", ""))));
    choice.addEventListener("change", () => {
        if (choice.value) load({ ...content.examples[choice.value], name: choice.value });
        choice.value = "";
    });
}

/** The button that copies a link to what stands in the page. The address has it too, where it can't be copied. */
function linking(editor) {
    part("link").addEventListener("click", async () => {
        const said = part("linked"), values = { source: editor.text, input: part("input").value };
        for (const it of ["pages", "stackPages", "steps"]) values[it] = Number(part(it).value);
        history.replaceState(null, "", `#${await packed(values)}`);
        said.textContent = "The address of this page has the source now.";
        await navigator.clipboard?.writeText(location.href).then(() => { said.textContent = "Copied: the link has the source."; }, () => {});
        setTimeout(() => { said.textContent = ""; }, 4000);
    });
}

/** Enables a button in place of another, and hands the focus on to it. */
function enable(name, other) {
    const hasFocus = document.activeElement === part(other);
    part(name).disabled = false;
    if (hasFocus) part(name).focus();
    part(other).disabled = true;
}

/** Where neither the output nor another tab on the run is seen, the output comes to be seen. */
function showRun() {
    if (!part("instructions").hidden || !part("meaning").hidden) part("tab_output").click();
    document.querySelector(".panel:not([hidden])").scrollIntoView({ block: "nearest" });
}

function keys(running, faults) {
    addEventListener("keydown", (event) => {
        if (event.key === "Enter" && (event.ctrlKey || event.metaKey)) running.run();
        else if (event.key === "F8") faults.next();
        else return;
        event.preventDefault();
    });
}

/** The program that was loaded last: its name, and its source as it was then. */
let loaded = { name: "program.cyc", source: "" };

/** Loads a program into the page, with its input and limits. */
function loader(editor, faults, running) {
    return (it) => {
        running.reset();
        loaded = { name: it.name ?? "program.cyc", source: it.source };
        for (const name of Object.keys(DEFAULTS)) part(name).value = it[name] ?? DEFAULTS[name];
        limits();
        editor.text = it.source;
        faults.soon(0);
    };
}

async function start() {
    themes();
    const { cycc, content } = await fetched();
    const editor = new Editor(part("editor"), grammarOf(content.grammar));
    const now = () => options(editor), looking = new Program(cycc);
    const faults = new Faults(part("faults"), editor, new Program(cycc));
    const running = new Running(part("output"), editor, new Program(cycc), now);
    const instructions = new Instructions(part("instructions"), editor, looking, now);
    const meaning = new Meaning(part("meaning"), new Program(cycc), now);
    const picture = new Picture(part("memory"), new Program(cycc), now);
    tabs(part("tabs"), (panel) => {
        if (panel !== "instructions") instructions.leave();
        ({ instructions, memory: picture })[panel]?.show();
    });
    running.told = (is) => {
        enable(...is ? ["stop", "run"] : ["run", "stop"]);
        if (is) showRun();
    };
    running.ended = (run) => {
        meaning.last = run;
        showStatistics(part("statistics"), run);
        picture.take(run);
    };
    editor.changed = () => {
        part("name").textContent = `${loaded.name}${editor.text === loaded.source ? "" : ", changed"}`;
        instructions.stale();
        faults.soon();
    };
    part("run").addEventListener("click", () => running.run());
    part("stop").addEventListener("click", () => running.stop());
    for (const name of Object.keys(RANGES)) part(name).addEventListener("input", limits);
    addEventListener("themed", () => picture.choose(picture.at));
    keys(running, faults);
    linking(editor);
    const load = loader(editor, faults, running), guide = new Guide(part("guide"), content, load);
    examples(content, load);
    part("build").textContent = content.build;
    guide.show("start");
    const given = await unpacked(location.hash);
    load(given ?? { ...content.examples["examples/hello.cyc"], name: "examples/hello.cyc" });
    addEventListener("hashchange", async () => {
        const other = await unpacked(location.hash);
        if (other) load(other);
    });
    document.body.classList.add("ready");
}

start().catch((error) => {
    for (const name of ["build", "checked"]) Object.assign(part(name), { textContent: `The page can't start: ${error.message}` }).classList.add("bad");
});
