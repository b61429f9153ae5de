"""Texts that are made by a seed, of the constructs of the grammar: each repeated, in one another up to 200 deep, and in pairs.

Each text of a seed and a number is the same wherever it is made. It is a function that isn't called, behind items that it uses. A recipe takes
how many of its constructs the text has, and its name says which these are: `#` is the number of the time, `$` the next one, `LAST` the last one.
Most texts are accepted. Those in which a construct of a pair uses up what the other one takes aren't, and `check` has to reject them as fast.
"""
import dataclasses
import random
import typing

DEEP = 200
# how deep an expression of a statement is that isn't about depth, at most
SHALLOW = 3

ITEMS = """\
struct P { int x; struct P *next; int *q; char k; };
@tagged union U { int a; char b; struct P *c; };
struct R<`r> { int *`r p; struct R<`r> *`r next; };
int g; int *gp; char ?gs = "text"; int ga[3];
int id(int n) { return n; }
int two(int n, int m) { return n + m; }
void nothing() { }
int *`r pass(int *`r p) { return p; }
void both(int *`a p, int *`b q : `a > `b) { }
struct R<`r> *`r next(struct R<`r> *`r s) { return s; }
"""
HEAD = ("void f(int c, unsigned w, char k, int *`H p, int ?`H t, char ?`H y, int *{3}`H e, int @`H n, struct P *`H s, union U *`H u, struct R<`a> *`a v, "
        "int *`a i, int *`b j, int *`H*`H pp, int ?`H*`H tp, region_t<`h> h PARAMETERS: `a > `b)")

# what gives an integer
LEAVES = ["c", "1", "'a'", "g", "*p", "t[0]", "s->x", "numelts(t)", "id(c)", "ga[1]", "*n", "e[2]", "s->next->x", "\"ab\"[1]", "4294967295", "**pp"]
# the same, with one in it
AROUND = ["(E)", "- E", "!E", "~E", "(E) + 1", "1 - (E)", "(E) * c", "c / (E)", "(E) % 7", "(E) << 1", "c >> (E)", "(E) & c", "c | (E)", "(E) ^ c",
          "c && (E)", "(E) || c", "(E) && c", "c || (E)", "(E) == c", "c < (E)", "(E) >= c", "(c = E)", "t[E]", "e[E]", "ga[E]", "id(E)", "two(E, c)",
          "two(c, E)", "*new (E)", "*rnew(h) (E)", "numelts(new {for x < 2 : E})", "*(p = new (E))", "(new {for x < 3 : E})[1]", "*(t + (E))",
          "(g = E)", "(s->x = E)", "\"ab\"[E]", "*pass(new (E))"]
# statements that stand in a block
PLAIN = [";", "E;", "c = E;", "g = E;", "*p = E;", "t[1] = E;", "e[1] = E;", "ga[2] = E;", "s->x = E;", "s = s->next;", "s->next = s;", "p = NULL;",
         "p = t;", "t = p;", "t = t + 1;", "p = e;", "p = n;", "y = \"ab\";", "\"ab\";", "*u = U.a(E);", "*u = U.c(s);", "nothing();", "id(E);",
         "p = pass(p);", "both(i, j);", "j = i;", "v = next(v);", "v = v;", "c :=: g;", "c :=: s->x;", "return;", "{ }", "new (E);", "rnew(h) (E);",
         "new {for x < 3 : E};", "*s = *s->next;", "*s = P(1, s, p, 'a');", "pp = pp;", "&*p;", "p = *pp;", "t = *tp;", "p = &s->x;", "p = &t[1];",
         "w = w / 2u;", "k = E;", "c = c < 1 && t == NULL || p != NULL;", "{ region<`o> o; rnew(o) 1; }",
         "{ int *`U m = rnew(unique_region) 1; ufree(m); }", "{ int m; m = E; }", "{ int m = E; m; }", "{ int m[3]; m[1] = E; }",
         "{ struct P m; m.x = E; }", "{ struct P m = *s; m; }", "{ union U m = U.a(1); m; }", "{ int *m = new 1; *m; }",
         "{ unsigned ?m = new {for x < 4 : x}; m[3]; }",
         "{ let NewDynamicRegion{<`k> m} = new_ukey(); { region<`k> o = open(m); rnew(o) 1; } free_ukey(m); }",
         "{ int *`U m = NULL; { let alias<`o> int *`o l = m; *l; } ufree(m); }"]
# statements with one in them
NESTING = ["{ S }", "if (E) S", "if (E) ; else S", "if (E) S else c = 1;", "while (E) S", "while (c) { S break; }",
           "while (c) { if (c) continue; S }", "switch (*u) { case {.a = x#}: S break; default: break; }",
           "switch (*u) { case {.b = x#}: break; case {.a = w#}: S break; default: nothing(); break; }", "{ int m#; S }", "{ int m# = E; S m#; }",
           "{ region<`o#> o#; S }", "{ region<`o#> o#; rnew(o#) 1; S return; }", "{ int *`U m# = rnew(unique_region) 1; S ufree(m#); }",
           "{ int *`U m# = NULL; if (c) { ufree(m#); S } }",
           "{ let NewDynamicRegion{<`k#> m#} = new_ukey(); { region<`k#> o# = open(m#); S } free_ukey(m#); }",
           "{ int *`U m# = NULL; { let alias<`o#> int *`o# l# = m#; S } ufree(m#); }"]
# declarations that one block has many of, and statements about the last of them
DECLARED = [("int m#;", "mLAST = E;"), ("int m# = E;", "mLAST;"), ("int m#[3];", "mLAST[1] = E;"), ("int *m# = &c;", "*mLAST = E;"),
            ("int ?m# = t;", "mLAST[1];"), ("struct P m#;", "mLAST.x;"), ("struct P m# = *s;", "mLAST = *s;"),
            ("union U m# = U.a(1);", "mLAST = U.b('b');"), ("region<`o#> o#;", "rnew(oLAST) 1;"), ("region<`o#> o#;", "if (c) return;"),
            ("int *`U m# = NULL;", "if (c) mLAST = NULL;"), ("int *`U m# = rnew(unique_region) 1;", "ufree(m#);"),
            ("let NewDynamicRegion{<`k#> m#} = new_ukey();", "free_ukey(m#);"), ("int *`U m# = NULL;", "{ let alias<`o> int *`o l = mLAST; *l; }"),
            ("struct R<`a> m#;", "mLAST.p = i;"), ("int *m# = p; int *`a l# = i;", "lLAST = i;")]
# parameters of the function, and statements about the last of them
PARAMETERS = [("int a#", "aLAST = E;"), ("int *a#", "*aLAST = E;"), ("int ?a#", "aLAST[1] = E;"), ("struct P *a#", "aLAST->x;"),
              ("region_t<`q#> a#", "rnew(aLAST) 1;"), ("int *`q# a#", "aLAST = NULL;"), ("int *`U a#", "if (c) aLAST = NULL;"),
              ("uregion_key_t<`q#> a#", "{ region<`qLAST> o = open(aLAST); }"), ("struct R<`q#> *`q# a#", "aLAST = aLAST->next;"),
              ("int *{3} a#", "aLAST[2];")]
# items that a text has many of, and statements about the last of them
OTHERS = [("int x#;", "xLAST = E;"), ("int x# = 1;", "xLAST;"), ("int x#[3];", "xLAST[1];"), ("int *x#;", "*xLAST;"),
          ("char ?x# = \"ab\";", "xLAST[1];"), ("char x# = 'a';", "k = xLAST;"), ("struct T# { int x; };", "{ struct TLAST m; m.x; }"),
          ("struct T# { struct T# *next; };", "{ struct TLAST *m; m->next; }"), ("@tagged union T# { int a; };", "{ union TLAST m = TLAST.a(1); }"),
          ("struct T#<`r> { int *`r p; };", "{ struct TLAST<`a> m; m.p = i; }"), ("void x#() { }", "xLAST();"),
          ("int x#(int n) { return n; }", "xLAST(E);"), ("void x#(int *`a p, int *`b q : `a > `b) { q = p; }", "xLAST(i, j);"),
          ("int x$(int n) { return x#(n); }", "x1(E);"), ("void x#(int *`U p) { ufree(p); }", "xLAST(rnew(unique_region) 1);"),
          ("int x#(int n) { while (n) n = n - 1; return n; }", "xLAST(E);"), ("void x#(region_t<`r> h) { rnew(h) 1; }", "xLAST(h);")]
# what one item has many of: the item, and what is repeated in it
LISTS = [("struct L { LIST};", "int m#; ", "{ struct L m; m.mLAST = E; }"), ("struct L { LIST};", "int *m#; ", "{ struct L m; *m.mLAST; }"),
         ("struct L { LIST};", "struct L *m#; ", "{ struct L *m; m->mLAST->m0; }"),
         ("@tagged union L { LIST};", "int m#; ", "{ union L m = L.mLAST(1); m; }"),
         ("@tagged union L { LIST};", "int *m#; ", "{ union L m = L.mLAST(p); m; }"),
         ("@tagged union L { LIST};", "int m#; ", "{ union L m = L.m0(1); switch (m) { case {.mLAST = l}: break; default: break; } }"),
         ("int x(LIST int n) { return n; }", "int a#,", "id(E);"), ("void x(LIST int n) { }", "int *`r# a#,", "id(E);"),
         ("struct L { LIST};", "struct P m#; ", "{ struct L m; m.mLAST.x; }")]
POINTERS = ["*", "@", "?", "*{2}", "*{3}", "@{2}", "*@notnull", "*`H", "?`H", "*`a", "@`a", "*@fat", "*@thin"]
USES = ["d = d2;", "d;", "d == NULL;", "d = NULL;", "&d;", "{ int POINTERS l = d; l; }", "d :=: d2;", "*d;", "&*d;", "d[0];"]

# statements with an error
ERRORS = ["d;", "1 = 2;", "i = j;", "int *`l d;", "c = p;", "s->d;", "struct D *d;", "p = i;", "int *`U m = NULL; m; m;", "return 1;", "f(c);", "break;", "c"]


@dataclasses.dataclass(frozen=True)
class Recipe:
    """A text by how many of its constructs it has."""

    name: str
    made: typing.Callable[[int], str]


def numbered(form, number, last):
    return form.replace("#", str(number)).replace("$", str(number + 1)).replace("LAST", str(last))


def repeated(form, count):
    """A form so many times, each with its number."""
    return "".join(numbered(form, it, count - 1) + " " for it in range(count))


def program(body, items="", parameters=""):
    return f"{ITEMS}{items}\n{HEAD.replace('PARAMETERS', parameters)} {{ {body} }}\nint main() {{ }}\n"


def expression(rng, depth):
    found = rng.choice(LEAVES)
    for _ in range(depth):
        found = rng.choice(AROUND).replace("E", f"{found}")
    return found


def filled(rng, form):
    return form.replace("E", expression(rng, rng.randint(0, SHALLOW))) if "E" in form else form


def plain(rng):
    return filled(rng, rng.choice(PLAIN))


def around(rng):
    return filled(rng, rng.choice(NESTING))


def in_one_another(forms, letter, inmost, depth):
    """Forms in turn, each in the one before, so deep."""
    begins, ends = [], []
    for level in range(depth):
        begin, _, end = numbered(forms[level % len(forms)], level, depth - 1).partition(letter)
        begins.append(begin)
        ends.append(end)
    return "".join(begins) + inmost + "".join(reversed(ends))


def chosen(rng, found, most):
    return [found(rng) for _ in range(rng.randint(1, most))]


def deep_of(forms, is_deeper):
    """How deep forms are put into one another: a phrase is in at most 256."""
    return DEEP // max(it.count("(") + it.count("{") + is_deeper for it in forms)


def in_turn(rng):
    forms = " ".join(chosen(rng, plain, 3))
    return Recipe(forms, lambda n: program(repeated(forms, n)))


def behind(rng):
    first, second = plain(rng), plain(rng)
    return Recipe(f"{first} .. and then {second} ..", lambda n: program(repeated(first, n) + repeated(second, n)))


def nested(rng):
    forms, inmost = chosen(rng, around, 3), plain(rng)
    deep = in_one_another(forms, "S", inmost, deep_of(forms, 1))
    return Recipe(f"{' '.join(forms)}, in one another around {inmost}", lambda n: program(f"{deep} " * n))


def wide(rng):
    form, inside = around(rng), plain(rng)
    return Recipe(f"{form}, with many of {inside}", lambda n: program(form.replace("S", f"{{ {repeated(inside, n)}}}").replace("#", "")))


def nested_behind(rng):
    """Many statements, and then loops or blocks in one another."""
    forms, first = chosen(rng, around, 2), plain(rng)
    deep = in_one_another(forms, "S", plain(rng), deep_of(forms, 1))
    return Recipe(f"{first} .. and then {' '.join(forms)}, in one another", lambda n: program(repeated(first, n) + f"{deep} " * (n // DEEP + 1)))


def deep_expression(rng):
    forms, inmost = [rng.choice(AROUND) for _ in range(rng.randint(1, 3))], rng.choice(LEAVES)
    deep = in_one_another(forms, "E", inmost, deep_of(forms, 1))
    return Recipe(f"{' '.join(forms)}, in one another around {inmost}", lambda n: program(f"c = {deep}; " * n))


def declared(rng):
    form, use = rng.choice(DECLARED)
    form, use = filled(rng, form), filled(rng, rng.choice([use, rng.choice(PLAIN), rng.choice(NESTING).replace("S", use)]))
    return Recipe(f"{form} .. {use} ..", lambda n: program(repeated(form, n) + repeated(use, n)))


def two_declared(rng):
    """Declarations in a block that is closed, and others behind it, with statements about the last of these."""
    (first, _), (second, use) = rng.choice(DECLARED), rng.choice(DECLARED)
    first, second, use = (filled(rng, it) for it in (first, second, use))
    return Recipe(f"{{ {first} .. }} {second} .. {use} ..", lambda n: program(f"{{ {repeated(first, n)}}} {repeated(second, n)}{repeated(use, n)}"))


def with_parameters(rng):
    parameter, use = rng.choice(PARAMETERS)
    use = filled(rng, rng.choice([use, rng.choice(PLAIN), rng.choice(NESTING).replace("S", use)]))
    return Recipe(f"f(.. {parameter} ..) {use} ..", lambda n: program(repeated(use, n), "", ", " + repeated(parameter + ",", n).rstrip(", ")))


def with_items(rng):
    items, use = rng.choice(OTHERS)
    first = "int x0(int n) { return n; } " if "x$" in items else ""
    use = filled(rng, rng.choice([use, use, rng.choice(PLAIN)]))
    return Recipe(f"{items} .. {use} ..", lambda n: program(repeated(use, n), first + repeated(items, n)))


def with_lists(rng):
    item, form, use = rng.choice(LISTS)
    use = filled(rng, rng.choice([use, use, rng.choice(PLAIN)]))
    return Recipe(f"{item.replace('LIST', form + '.. ')} {use} ..", lambda n: program(repeated(use, n), item.replace("LIST", repeated(form, n))))


def with_bodies(rng):
    """Many functions with a statement or two in each."""
    head, body = HEAD.replace(" f(", " f#(").replace("PARAMETERS", ""), " ".join(chosen(rng, plain, 2) + chosen(rng, around, 2)).replace("S", ";")
    return Recipe(f"void f#(..) {{ {body} }} ..", lambda n: program("", repeated(f"{head} {{ {body} }}\n", n)))


def with_errors(rng):
    """Many functions, each with an error of some rule at its end."""
    error, body = rng.choice(ERRORS), plain(rng)
    head = HEAD.replace(" f(", " f#(").replace("PARAMETERS", "")
    return Recipe(f"void f#(..) {{ {body} {error} }} ..", lambda n: program("", repeated(f"{head} {{ {body} {error} }}\n", n)))


def deep_locals(turn, use, count):
    # a local without a value may be NULL
    body = f"{use} " * (1 if "POINTERS" in use else count)
    return program(f"int POINTERS d; int POINTERS d2; {body}".replace("POINTERS", f"{turn * count}*"))


def deep_parameter(turn, use, count):
    body = f"{use} ".replace("d2", "d") * (1 if "POINTERS" in use else count)
    return program(body.replace("POINTERS", turn * count), "", f", int {turn * count} d")


def with_types(rng):
    turn, use = "".join(rng.choice(POINTERS) for _ in range(rng.randint(1, 4))), rng.choice(USES)
    whose, made = rng.choice([("locals", deep_locals), ("a parameter", deep_parameter)])
    return Recipe(f"a type of {turn} .., of {whose}, {use} ..", lambda n: made(turn, use, n))


KINDS = [in_turn, behind, nested, wide, nested_behind, deep_expression, declared, two_declared, with_parameters, with_items, with_lists, with_bodies,
         with_errors, with_types]


def recipe(seed, number):
    """The text of a seed with this number: each kind comes in turn."""
    return KINDS[number % len(KINDS)](random.Random(f"{seed} {number}"))
