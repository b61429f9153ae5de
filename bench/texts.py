"""Texts to time the passes on: statements of one `main`, and whole programs of small functions, of integers or of structs and pointers."""
import itertools


def statements():
    """Short statements."""
    yield "int a = 1;\n"
    while True:
        yield "a = a + 1; if (a > 7) a = 0;\n"


def blocks():
    """Blocks that declare some locals each, and use them."""
    for number in itertools.count():
        yield f"{{ int a{number} = 1; int b{number} = a{number}; int c{number}; c{number} = a{number} + b{number}; }}\n"


def declarations():
    """Nothing but declarations, in one block."""
    for number in itertools.count():
        yield f"int x{number};\n"


def text_of(lines, length):
    """A program of so many bytes, with these lines in its `main`."""
    head, tail = "int main() {\n", "return 0; }\n"
    taken, room = [], length - len(head) - len(tail)
    for line in lines:
        if len(line) > room:
            break
        taken.append(line)
        room -= len(line)
    return head + "".join(taken) + " " * room + tail


FUNCTION = """\
{kind} total{number} = {number};
int step{number}(int first, char second) {{
    int sum = first;
    unsigned left = 3u;
    char byte = second;
    while (left > 0u) {{
        int next = byte + 1;
        sum = sum + next;
        left = left - 1u;
    }}
    if (sum > {bound}) {{
        sum = step{before}(0, byte);
    }} else {{
        sum = step{earlier}(sum, '{letter}');
    }}
    total{number} = total{number} + sum;
    return sum;
}}
"""


def functions(lines):
    """A program of at most so many lines: small functions, each with a global, that call two of those before them."""
    text = ["int step0(int first, char second) {\n    return first + second;\n}\n"]
    tail = "int main() {{\n    return step{last}(1, 'a') % 2;\n}}\n"
    count = (lines - 6) // FUNCTION.count("\n")
    for number in range(1, count + 1):
        text.append(FUNCTION.format(number=number, kind=["int", "unsigned", "char"][number % 3], bound=number % 90, before=number - 1,
                                    earlier=number * 7 // 11, letter="abcdefghij"[number % 10]))
    return "".join(text) + tail.format(last=count)


STRUCTURE = """\
struct Node{number} {{ int value; struct Node{number} *next; struct Node{before} *other; }};
int visit{number}(struct Node{number} *node, int *count) {{
    struct Node{number} *rest = node;
    struct Node{number} last = *node;
    int *place = &last.value;
    int sum = 0;
    while (rest != NULL) {{
        *place = rest->value + sum;
        *count = *count + 1;
        sum = *place;
        rest = rest->next;
    }}
    if (last.other != NULL) {{ sum = sum + visit{before}(last.other, &sum); }}
    return sum;
}}
"""


def pointers(length):
    """A program of so many bytes: structs that point to each other, and functions that follow such pointers."""
    head = "struct Node0 { int value; };\nint visit0(struct Node0 *node, int *count) { *count = node->value; return *count; }\n"
    tail = "int main() { return 0; }\n"
    taken, room = [], length - len(head) - len(tail)
    for number in itertools.count(1):
        part = STRUCTURE.format(number=number, before=number - 1)
        if len(part) > room:
            return head + "".join(taken) + " " * room + tail
        taken.append(part)
        room -= len(part)
