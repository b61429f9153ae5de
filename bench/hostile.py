"""Texts that each have much of one construct, on which a pass may take more time or memory than its text is long.

`bench/run texts` prints, for each text and each length, the user and system seconds and the peak memory of `cycc check` and of `cycc compile`, with what
they answer; of texts with many errors, of `cycc check --all`. Where the run itself is what grows, it prints those of `cycc eval`, for each number of
elements, calls or iterations. Each command has a limit on memory and one on processor time. A text that reached a limit at one length isn't tried at
a greater one.

`bench/run texts --made SEED` does something else (growth.py): of texts that are made by a seed it prints which take more than their length says.
"""
import argparse
import dataclasses
import pathlib
import subprocess
import tempfile
import typing

import growth
from trials import Limits, of_length, trial_of

TOP = pathlib.Path(__file__).resolve().parent.parent
BUILD_CRATE = TOP / "tools" / "build"
PROGRAM = TOP / "crates" / "cycc_main" / "out" / "cycc_main"
CASES = TOP / "crates" / "case_runs" / "data" / "large" / "hostile.cases"
LENGTHS = [250_000, 500_000, 1_000_000]
# a fat pointer to three elements
THREE = "int ?p = new {for i < 3 : 7}; "
# of each command, in megabytes and in seconds
MEMORY = 4096
SECONDS = 60
# how many of its construct a text has in the cases
FEW = 3

@dataclasses.dataclass(frozen=True)
class Text:
    """A text by a rule: what it has much of, the text with so many of that, and how its run ends with few."""

    name: str
    made: typing.Callable[[int], str]
    ending: str = "ended 0"
    status: int = 0


def each(count, form, between=""):
    """A form so many times, with the number of the time, and of the next, in place of # and $."""
    return between.join(form.replace("#", str(it)).replace("$", str(it + 1)) for it in range(count))


def block(body):
    return f"{{ {body.strip()} }}" if body else "{ }"


def main_of(body):
    return f"int main() {block(body)}\n"


def uncalled(body, head="void f()", before=""):
    """A program with a function that is not called: so its body is compiled, and the run has nothing to do."""
    return f"{before}{head} {block(body)}\n{main_of('')}"


def bounds(count):
    """A chain of bounds, and as many assignments that rest on the whole of it."""
    regions = f"int *`r0 p, {each(count, 'int *`r$ p$, ')}int *`r{count} q : {each(count, '`r#>`r$', ',')}"
    return uncalled("q=p;" * count, f"void f({regions})")


def equal_bounds(count):
    head = "int *`a p, int *`b q : "
    return uncalled("g(p,q);" * count, f"void f({head}`a>`b)", f"void g({head}{each(count, '`a>`b', ',')}) {{ }}\n")


def fat_subscripts(count):
    return main_of(f"int {'?' * count} p; p{'[0]' * count};")


def arguments(count, argument, local):
    return f"int f({each(count, 'int a#', ',')}) {{ return a{count - 1}; }}\n" + main_of(f"{local}return f({','.join([argument] * count)});")


def converted(count, of, argument, local):
    """A function with so many parameters of a type, and a call whose arguments are chosen or converted with a check."""
    return f"int f({each(count, f'{of}a#', ',')}) {{ return 7; }}\n" + main_of(f"{local}return f({','.join([argument] * count)});")


def pointer_parameters(count):
    """A function with so many pointers, and its call."""
    return f"int f({each(count, 'int *p#', ',')}) {{ return p{count - 1} == NULL; }}\n" + main_of(f"return f({','.join(['NULL'] * count)});")


def clauses(count):
    union = f"@tagged union U {{ {each(count, 'int a#; ')}}};\n"
    return uncalled(f"switch (*u) {{ {each(count, 'case {.a#=x}: break; ')}}}", "void f(union U *u)", union)


def last_member(count, kind, body, head):
    """A struct or union with so many members, and as many statements about the last one."""
    return uncalled(body.replace("LAST", f"m{count - 1}") * count, head, f"{kind} T {{ {each(count, 'int m#; ')}}};\n")


def diamonds(count):
    """Bounds that branch and join again, and assignments of pointers at their ends."""
    regions = f"int *`r0 p, {each(count, 'int *`s# a#, int *`t# b#, int *`r$ p#, ')}int *`r{count} q"
    return uncalled("q=p;" * count, f"void f({regions} : {each(count, '`r#>`s#,`r#>`t#,`s#>`r$,`t#>`r$', ',')})")


def unique_locals(count):
    return uncalled(f"{each(count, 'int*`U u#; ')}{'while(c) ' * 100}{{ {each(count, 'u#=NULL; ')}}}", "void f(int c)")


def wide_struct(count, link=""):
    """A struct with so many region parameters."""
    regions = each(count, "`r#", ",")
    return f"struct S<{regions}> {{ int x; {link.replace('REGIONS', regions)}}};\n"


def regions_closed(count):
    """So many regions in a block that is closed, and loops behind it."""
    return main_of(f"int x; {{ {each(count, 'region<`r#> h#; ')}}} {'while (x) x = 0; ' * count}")


def regions_left(count, opened, left):
    """So many regions, and as many ways out of their block."""
    regions = each(count, "region<`r#> h#; ")
    return main_of(opened.replace("REGIONS", regions + f"if(c) {left}; " * count))


TEXTS = [
    Text("a chain of bounds, and assignments that rest on all of it", bounds),
    Text("bounds that branch and join again, and assignments that rest on all of them", diamonds),
    Text("equal bounds, and calls", equal_bounds),
    Text("subscripts of a fat pointer to fat pointers", fat_subscripts, "raised Null_Exception", 2),
    Text("arguments of one call", lambda n: arguments(n, "7", ""), "ended 7", 1),
    Text("arguments of one call, each a checked element", lambda n: arguments(n, "a[i]", "int a[1]; int i; a[0] = 7; "), "ended 7", 1),
    Text("arguments of one call, each a pointer made fat", lambda n: converted(n, "int ?", "p", "int *p = new 7; "), "ended 7", 1),
    Text("arguments of one call, each a fat pointer made one to 3 elements", lambda n: converted(n, "int *{3}", "p", THREE), "ended 7", 1),
    Text("arguments of one call, each a fat pointer made thin", lambda n: converted(n, "int *", "p", THREE), "ended 7", 1),
    Text("arguments of one call, each a fat pointer made one to 3 elements that isn't NULL", lambda n: converted(n, "int @{3}", "p", THREE), "ended 7", 1),
    Text("arguments of one call, each a choice", lambda n: converted(n, "int ", "q&&q", "int q = 1; "), "ended 7", 1),
    Text("pointer parameters of a function that is called", pointer_parameters, "ended 1", 1),
    Text("a deep pointer type, followed 200 times at once",
         lambda n: uncalled(f"int {'*' * (200 + n)}p; " + f"{'*' * 200}p; " * (n // 200 + 1))),
    Text("a deep pointer type, and assignments", lambda n: uncalled(f"int {'*' * n}p; int {'*' * n}q; " + "p=q;" * n)),
    Text("a deep pointer type of a parameter, and assignments", lambda n: uncalled("p=p;" * n, f"void f(int {'*' * n}p)")),
    Text("a deep type of two pointers in turn, and assignments", lambda n: uncalled(f"int {'@*' * n}p; int {'@*' * n}q; " + "p=q;" * n)),
    Text("a deep type of a thin pointer and a fat one in turn, and assignments", lambda n: uncalled(f"int {'*?' * n}p; int {'*?' * n}q; " + "p=q;" * n)),
    Text("a deep type of three pointers in turn, and assignments", lambda n: uncalled(f"int {'*@*?' * n}p; int {'*@*?' * n}q; " + "p=q;" * n)),
    Text("a deep type of pointers to 2 and to 3 elements in turn, and assignments",
         lambda n: uncalled(f"int {'*{2}*{3}' * n}p; int {'*{2}*{3}' * n}q; " + "p=q;" * n)),
    Text("a deep pointer type, and addresses", lambda n: uncalled(f"int {'*' * n}p; " + "&p;" * n)),
    Text("a deep pointer type of a member", lambda n: uncalled("struct S s; " + "s.p;" * n, before=f"struct S {{ int {'*' * n}p; }};\n")),
    Text("a deep pointer type of a parameter, and calls", lambda n: uncalled("g(NULL);" * n, before=f"void g(int {'*' * n}p) {{ }}\n")),
    Text("clauses of one switch", clauses),
    Text("members of a union, and switches with the last one",
         lambda n: last_member(n, "@tagged union", "switch(*u){case{.LAST=x}:break;default:break;}", "void f(union T *u)")),
    Text("members of a union, and values of the last one", lambda n: last_member(n, "@tagged union", "*u=T.LAST(1);", "void f(union T *u)")),
    Text("members of a struct, and the last one of it", lambda n: last_member(n, "struct", "s->LAST;", "void f(struct T *s)")),
    Text("unique locals, assigned in 100 nested loops", unique_locals),
    Text("`*&` 110 deep, repeated", lambda n: main_of("int x; " + f"{'*&' * 110}x; " * n)),
    Text("subscripts 100 deep, repeated", lambda n: main_of("int a[1]; " + f"{'a[' * 100}0{']' * 100}; " * n)),
    Text("`if` 200 deep, repeated", lambda n: main_of("int x; " + f"{'if(x)' * 200}; " * n)),
    Text("`if` with `else` 200 deep, repeated", lambda n: main_of("int x; " + f"{'if(x);else ' * 200}; " * n)),
    Text("loops 200 deep, repeated", lambda n: main_of("int x; " + f"{'while(x)' * 200}; " * n)),
    Text("blocks 200 deep, repeated", lambda n: main_of(f"{'{' * 200}{'}' * 200} " * n)),
    Text("signs 200 deep, repeated", lambda n: main_of("int x; " + f"{'- ' * 200}x; " * n)),
    Text("empty statements", lambda n: main_of(";" * n)),
    Text("region parameters of a struct, and parameters of its type",
         lambda n: uncalled("", f"void f({each(n, 'struct S *p#', ',')})", wide_struct(n))),
    Text("region parameters of a struct, and globals of its type", lambda n: wide_struct(n) + each(n, "struct S *g#; ") + main_of("")),
    Text("region variables of a function, and calls",
         lambda n: uncalled("g(NULL);" * n, before=wide_struct(n) + "void g(struct S *p) { }\n")),
    Text("region parameters of a struct, and links that are followed",
         lambda n: uncalled(f"p{'->s' * n};", "void f(struct S *p)", wide_struct(n, "struct S<REGIONS> *`r0 s; "))),
    Text("regions of a block that is closed, and loops behind it", regions_closed),
    Text("regions of a block, and returns", lambda n: regions_left(n, "int c; REGIONS", "return 0")),
    Text("regions of a loop, and breaks", lambda n: regions_left(n, "int c; while(c) { REGIONS}", "break")),
    Text("regions of a loop, and continues", lambda n: regions_left(n, "int c; while(c) { REGIONS}", "continue")),
]

# of these `check --all` answers a line for each item, up to 100 of the kinds that are looked for one after the other
FAULTY = [Text(f"functions or globals, each with an error ({name})", lambda n, form=form: each(n, form) + main_of(""))
          for name, form in [
              ("Parse", "void f#() { 1 }\n"), ("Name", "void f#() { x; }\n"), ("Name, of items", "struct T *g#;\n"), ("Type", "void f#() { 1 = 2; }\n"),
              ("Type, of heads", "void f#(void x) { }\n"), ("Type, of globals", "int g# = NULL;\n"), ("Region", "void f#() { int *`r p; }\n"),
              ("Outlives", "void f#(int *`a p, int *`b q) { p = q; }\n"), ("Outlives, of globals", "int *g#; void f#(int *`a p) { g# = p; }\n"),
              ("Effect", "void g#(int *`r p) { } void f#(int *`r p; {}) { g#(p); }\n"), ("Consumed", "void f#(int *`U p) { p; p; }\n"),
              ("Lent", "void f#(int *`U p) { let alias<`r> int *`r x = p; p; }\n"), ("Copy", "int *`U g#; void f#() { g#; }\n"),
              ("Size", "int a#[1000000000];\n")]]

RUNS = [
    Text("elements of an array comprehension", lambda n: main_of(f"new {{for i < {n} : 1}};")),
    Text("calls of a recursion", lambda n: f"int f(int n) {{ if (n == 0) return 0; return f(n - 1); }}\n{main_of(f'return f({n});')}"),
    Text("iterations that open a region, make an object there and leave it",
         lambda n: main_of(f"int i = 0; while (i < {n}) {{ region<`r> h; rnew(h) 1; i = i + 1; }}")),
    Text("iterations that make a unique block and free it",
         lambda n: main_of(f"int i = 0; while (i < {n}) {{ int *`U p = rnew(unique_region) 1; ufree(p); i = i + 1; }}")),
]


def try_texts(program, limits, texts, commands, numbers, made):
    """Prints a row for each text and number: the answer of each command that hasn't reached a limit yet."""
    with tempfile.TemporaryDirectory() as folder:
        path = pathlib.Path(folder, "text.cyc")
        for text in texts:
            left = list(commands)
            for number in numbers:
                path.write_text(made(text, number), encoding="ascii")
                tried = [(it, trial_of(program, it, path, limits)) for it in left]
                said = "; ".join(f"{it} {trial}" for it, trial in tried)
                print(f"{text.name}, {number:,}: {said or 'not tried'}", flush=True)
                left = [it for it, trial in tried if not trial.is_limited]


def write_cases():
    """Writes the file of cases: each text with few of its construct, and how its run ends, which is known from the rule."""
    head = ("Texts that have much of one construct, with few of it here: bench/hostile.py makes them, and writes this file. How a run ends is known from the\n"
            "rule: the function that has the construct isn't called, or gives its last argument, or a subscript follows NULL.\n\n"
            "-- command: cycc run IN --ending\n-- command: cycc eval IN --ending\n")
    cases = [f"\n== {it.name}\n-- source\n{it.made(FEW)}-- says: {it.ending}\n" + f"-- status: {it.status}\n" * (it.status != 0) for it in TEXTS + RUNS]
    CASES.write_text(head + "".join(cases), encoding="ascii")


def main(words):
    parser = argparse.ArgumentParser(prog="bench/run texts", description="Times check and compile on texts that have much of one construct.")
    parser.add_argument("names", nargs="*", metavar="NAME", help="a word of a text's name; all texts where none is given")
    parser.add_argument("--program", type=pathlib.Path, metavar="PATH", help="a built program; that of this repository where none is given")
    parser.add_argument("--seconds", type=int, default=SECONDS, metavar="N", help=f"the most processor seconds of a command: {SECONDS} where none are given")
    parser.add_argument("--memory", type=int, default=MEMORY, metavar="MB", help=f"the most address space of a command: {MEMORY} where none is given")
    parser.add_argument("--made", metavar="SEED", help="tries texts that are made by a seed instead, and prints what grows")
    parser.add_argument("--count", type=int, default=100, metavar="N", help="how many of them: 100 where no number is given")
    parser.add_argument("--first", type=int, default=0, metavar="N", help="the number of the first of them: 0 where none is given")
    parser.add_argument("--lengths", type=lambda words: [int(it) for it in words.split(",")], metavar="N,N", help="other lengths of the texts, in bytes")
    parser.add_argument("--cases", action="store_true", help="writes the file of cases instead")
    chosen = parser.parse_args(words)
    if chosen.cases:
        write_cases()
        return
    texts, faulty, runs = ([it for it in kind if not chosen.names or any(name in it.name for name in chosen.names)] for kind in (TEXTS, FAULTY, RUNS))
    if not chosen.program:
        subprocess.run([BUILD_CRATE, "cycc_main"], stdin=subprocess.DEVNULL, stdout=subprocess.DEVNULL, check=True)
    program, limits = chosen.program or PROGRAM, Limits(chosen.memory, chosen.seconds)
    if chosen.made:
        growth.try_made(program, limits, chosen.made, range(chosen.first, chosen.first + chosen.count), chosen.lengths or LENGTHS[:2])
        return
    lengths = chosen.lengths or LENGTHS
    try_texts(program, limits, texts, ["check", "compile"], lengths, lambda text, length: of_length(text.made, length))
    try_texts(program, limits, faulty, ["check --all", "check --all --why"], lengths, lambda text, length: of_length(text.made, length))
    try_texts(program, limits, runs, ["eval"], LENGTHS, lambda text, number: text.made(number))
