"""The rows that the engine has of each node beside its definition: its range, its code, its name and its JSON.

bin/nodes takes them from schemas/nodes.json. A block of an `.antt` file begins at the signature of a definition and
ends at the next blank line; one of an `.rt` file stands between the comments `bin/nodes makes these rows` and `end`.
Two rows that differ in their layout alone are the same: `rt fmt` lays out what is in `.rt` files.
"""

import re
import textwrap

FAR = 2**62 - 1
ENUMS = {"leaf": "Leaf", "one": "One", "two": "Two"}
COUNTS = ("", "a_number", "two_numbers", "three_numbers", "four_numbers")
#: The variables of a code, of a list of names, and of numbers that are given by their places.
PLACES = "abcd"
NUMBERS = "nmkl"


class Node:
    """A node as the engine has it: a variant of Leaf, One or Two, and its fields."""

    def __init__(self, row):
        self.name, self.row = row["name"], row
        self.variant = camel(self.name)
        self.fields = [item for item in row["items"] if item["unit"] != "plan"]
        self.names = [item["field"] for item in self.fields]
        self.kind = ("leaf", "one", "two")[len(row["items"]) - len(self.fields)]
        self.group = row.get("group")
        self.takes_numbers = all(is_number(item) for item in self.fields)
        #: Whether its value is a policy alone, or a number and a policy: others have functions of their own.
        self.is_plain = len(self.fields) == 0 or len(self.fields) == 1 and self.takes_numbers

    def applied(self, names, prefix=""):
        """The variant with these parameters, as a definition has it."""
        words = " ".join([prefix + self.variant, *names])
        return f"({words})" if names else words

    def rust(self, enum, names=None):
        """The variant with its fields, as Rust writes it."""
        names = self.names if names is None else names
        if not names:
            return f"{enum}::{self.variant}"
        if len(names) == 1:
            return f"{enum}::{self.variant}({names[0]})"
        return f"{enum}::{self.variant} {{ {', '.join(names)} }}"


def camel(name):
    return "".join(word.capitalize() for word in name.split("_"))


def is_number(item):
    return "max" in item


def code(name):
    return f'codes "{name}"'


def is_long(names):
    """Whether `rt fmt` writes the fields below one another."""
    return len(", ".join(names)) > 18


# Definitions


def in_range(node):
    """The range of a node's parameters; the range of one that another bounds is that other's."""
    bounded = {item.get("at_least") for item in node.fields}
    found = []
    for item in node.fields:
        if not is_number(item) or item["letter"] in bounded:
            continue
        field = item["field"]
        most = f"nat_le {field} {'FAR' if item['max'] == FAR else item['max']}"
        least = {each["letter"]: each["field"] for each in node.fields}.get(item.get("at_least"), item["min"])
        found.append([most] if least == 0 else [f"nat_le {least} {field}", most])
    if len(found) == 1:
        return " && ".join(found[0])
    groups = [each[0] if len(each) == 1 else f"({' && '.join(each)})" for each in found]
    whole = groups.pop() if groups else "true"
    for n, each in enumerate(reversed(groups)):
        whole = f"{each} && ({whole})" if n else f"{each} && {whole}"
    return whole


def fitted(begins, parts):
    """A row, with what is past 120 columns on lines of its own."""
    line = f"{begins} {parts}"
    return f"{line}\n" if len(line) <= 120 else f"{begins}\n{filled(parts.split(' '))}\n"


def filled(words):
    """Words in as few lines as take 120 columns each."""
    lines = ["    " + words[0]]
    for word in words[1:]:
        if len(lines[-1]) + 1 + len(word) > 120:
            lines.append("    " + word)
        else:
            lines[-1] += " " + word
    return "\n".join(lines)


def ranges(nodes, kind):
    return "".join(fitted(f"{kind}_in_range {node.applied(node.names)} =", in_range(node)) for node in nodes)


def type_of(item):
    """The word by which the codes of an item are called, if it is no number."""
    return {"truth": "truth", "word": item["field"]}.get(item["unit"])


def coded(item):
    made = type_of(item)
    return f"({made}_code {item['field']})" if made else item["field"]


def codes_of(nodes, kind):
    """The code of each node: its number, and its fields in four places."""
    rows = ""
    for tag, node in enumerate(nodes):
        if kind == "two":
            rows += f"two_code {node.variant} = gnum {tag}\n"
            continue
        given = [coded(item) for item in node.fields] + ["0"] * (4 - len(node.fields))
        rows += f"{kind}_code {node.applied(node.names)} = tagged {tag} {' '.join(given)}\n"
    return rows


def nodes_at(nodes, kind):
    """The list of all nodes in the order of their codes."""
    words = []
    for node in nodes:
        given = [f"({of}_at {place})" if of else place for of, place in zip(map(type_of, node.fields), PLACES)]
        words.append(" ".join([node.variant, *given]) + " ∷")
    if kind == "two":
        return f"two_at tag = get_or ({' '.join(words)} []) tag {nodes[0].variant}\n"
    # (the last line has ` in` behind it)
    *others, last = words
    return filled([*others, f"{last} [] in"]).removesuffix(" in")


def nodes_of(nodes, kind, read, built):
    """The node that was read, as it is built."""
    return "".join(
        f"{kind}_of {node.applied(node.names, read)} = {' '.join([built + node.variant, *node.names])}\n"
        for node in nodes
    )


def listed(rows):
    """A definition by a list of rows."""
    return "\n    " + "\n    ∷ ".join([*rows, "[]"]) + "\n"


def spelt(nodes):
    """The rows of a table of JSON: the name of each node, and the form of its value."""
    return listed([f"({code(node.name)}, {form(node)})" for node in nodes])


def form(node):
    if node.kind == "two":
        return f"two_plans {node.variant}"
    if node.kind == "leaf":
        return f"{COUNTS[len(node.fields)]} {node.variant}".strip()
    if not node.is_plain:
        return f"parameters_and_a_plan {node.name}_and_part"
    return f"{'a_number_and_a_plan' if node.fields else 'a_plan'} {node.variant}"


def value(item):
    """An item in the JSON that is written."""
    if item["unit"] == "plan":
        return "a"
    words = {"word": f"string ({item.get('field')}_word {item.get('field')})", "truth": f"boolean {item.get('field')}"}
    return f"({words.get(item['unit'], 'whole ' + item.get('field', ''))})"


def written(node):
    """The JSON of a node, as a definition has it."""
    name, names = f"({code(node.name)})", " ".join(node.names)
    if node.kind == "leaf" and len(node.fields) < 3:
        return (f"string {name}", f"with_number {name} {names}", f"with_two {name} {names}")[len(node.fields)]
    if node.kind == "one" and node.is_plain:
        return f"with_number_and {name} {names} a" if node.fields else f"named {name} a"
    items = "no_items"
    for item in reversed(node.row["items"]):
        items = f"(item {value(item)} {items})"
    return f"listed {name} {items}"


def writes(nodes, kind):
    over = " a" if kind == "one" else ""
    return "".join(fitted(f"{kind}_json {node.applied(node.names)}{over} =", written(node)) for node in nodes)


def words(nodes):
    return "".join(f"two_word {node.variant} = {code(node.name)}\n" for node in nodes)


def named(nodes, prefix=""):
    """The rows of a table of names."""
    return listed([f"({code(node.name)}, {prefix}{node.variant})" for node in nodes])


def item_of(node):
    """The item of its value that is the plan of a node over one, where that is not the value itself."""
    return f"Some {len(node.fields)}" if node.fields else "None"


def items_in(nodes):
    return "".join(f"item_in {node.applied(node.names)} = {item_of(node)}\n" for node in nodes)


def has_parts(node):
    if node.kind == "two":
        return f"pair_has {node.variant}"
    if node.kind == "leaf":
        return f"{('', 'number_has', 'two_have', 'three_have', 'four_have')[len(node.fields)]} leaf.{node.variant}"
    if not node.is_plain:
        return f"{node.name}_has"
    return f"delay_has {node.variant} (λ n. refl)" if node.fields else f"plan_has {node.variant} refl"


def all_have(nodes):
    """The proof of each row of the whole table, nested on the right."""
    *others, last = map(has_parts, nodes)
    lines = ["all_have = ("]
    for depth, each in enumerate(others, 1):
        inner = "(" if depth < len(others) else f"({last}, tt),"
        lines += ["  " * depth + each + ",", "  " * depth + inner]
    lines += ["  " * depth + ")," for depth in range(len(others) - 1, 0, -1)]
    return "\n".join([*lines, ")", ""])


# Code


def arm(indent, pattern, made, names=()):
    """An arm of a match, with its braces where it is past 100 columns."""
    line = f"{' ' * indent}{pattern} => {made},"
    if len(line) > 100 and not is_long(names):
        return f"{' ' * indent}{pattern} => {{ {made} }}\n"
    return line + "\n"


def block_arm(indent, pattern, first, then):
    return f"{' ' * indent}{pattern} => {{\n{' ' * indent}    {first}\n{' ' * indent}    {then}\n{' ' * indent}}}\n"


def variants(nodes, types):
    """The variants of an enum of nodes as they are read."""
    rows = ""
    for node in nodes:
        of = [types(item) for item in node.fields]
        if len(of) < 2:
            rows += f"    {node.variant}{'(' + of[0] + ')' if of else ''},\n"
        else:
            fields = "".join(f"        {name}: {kind},\n" for name, kind in zip(node.names, of))
            rows += f"    {node.variant} {{\n{fields}    }},\n"
    return rows


def type_read(item):
    return {"word": camel(item["field"]), "truth": "bool"}.get(item["unit"], "u64")


def call(node, *around):
    """The call of its builder, with what stands before and after its fields."""
    before, after = around or ((), ())
    return f"Plan::{node.name}({', '.join([*before, *node.names, *after])})"


def builds_leaves(nodes):
    return "".join(arm(12, node.rust("LeafNode"), call(node), node.names) for node in nodes)


def builds_ones(nodes):
    return "".join(
        arm(12, node.rust("OneNode"), f"built({call(node, ['alloc'], ['plan'])})", node.names) for node in nodes
    )


def builds_twos(nodes):
    return "".join(
        f"        Two::{node.variant} => built({call(node, ['alloc'], ['first', 'second'])}),\n" for node in nodes
    )


def reads_names(nodes):
    return "".join(f'        "{node.name}" => Ok(LeafNode::{node.variant}),\n' for node in nodes)


def reads_leaves(nodes):
    rows = ""
    for node in nodes:
        if len(node.fields) == 1:
            rows += f'        "{node.name}" => Ok({node.rust("LeafNode", ["number(value)?"])}),\n'
            continue
        first = f"let ({', '.join(node.names)}) = {COUNTS[len(node.fields)]}(value)?;"
        rows += block_arm(8, f'"{node.name}"', first, f"Ok({node.rust('LeafNode')})")
    return rows


def reads_ones(nodes):
    rows = ""
    for node in nodes:
        if not node.fields:
            rows += f'        "{node.name}" => Ok(Node::One({node.rust("OneNode")}, value)),\n'
            continue
        reader = "number_and_plan" if node.is_plain else f"{node.name}_and_plan"
        first = f"let ({', '.join([*node.names, 'plan'])}) = {reader}(value)?;"
        made, then = node.rust("OneNode"), ""
        if is_long(node.names):
            then, made = f"let node = {made};\n            ", "node"
        rows += block_arm(8, f'"{node.name}"', first, f"{then}Ok(Node::One({made}, plan))")
    return rows


def reads_twos(nodes):
    return "".join(f'        "{node.name}" => Two::{node.variant},\n' for node in nodes)


def held(item):
    """A field's number: those up to FAR are a type of their own."""
    return f"{item['field']}.get()" if item["unit"] in ("ms", "number") else item["field"]


def writes_leaves(nodes):
    rows = ""
    for node in nodes:
        numbers = [held(item) for item in node.fields]
        if len(numbers) < 3:
            writer = ("name_alone", "of_number", "of_two")[len(numbers)]
            made = f"{writer}({', '.join(['alloc', f'{chr(34)}{node.name}{chr(34)}', *numbers])})"
            rows += arm(8, node.rust("Leaf"), made, node.names)
            continue
        items = f"let items = json!(in alloc; [{', '.join(numbers)}])?;"
        rows += block_arm(8, node.rust("Leaf"), items, f'of_value(alloc, "{node.name}", items)')
    return rows


def writes_ones(nodes):
    rows = ""
    for node in nodes:
        given = ", ".join(["alloc", f'"{node.name}"', *[held(item) for item in node.fields], "plan"])
        rows += arm(8, node.rust("One"), f"{'of_number_and' if node.fields else 'of_value'}({given})")
    return rows


def writes_twos(nodes):
    return "".join(f'        Two::{node.variant} => "{node.name}",\n' for node in nodes)


def by_name(nodes, taken, before=(), after=()):
    """The arms that build the nodes of these names from so many numbers."""
    of = "of_node" if before else "of_leaf"
    return "".join(
        f'        "{node.name}" => {of}(Plan::{node.name}({", ".join([*before, *NUMBERS[:taken], *after])})),\n'
        for node in nodes
    )


def items_of(nodes):
    """The arms that say which item of its value a node has as its plan."""
    rows = ""
    for item in sorted({len(node.fields) for node in nodes}):
        here = [node for node in nodes if len(node.fields) == item]
        patterns = " | ".join(
            f"OneNode::{node.variant}" + ("", "(_)", " { .. }")[min(2, len(node.fields))] for node in here
        )
        rows += f"        {patterns} => {f'Some({item})' if item else 'None'},\n"
    return rows


def range_text(node):
    """The words and ranges of a node's items, as a hint has them."""
    if "ranges" in node.row:
        return node.row["ranges"]
    numbers = [item for item in node.fields if is_number(item)]
    if len(numbers) > 1 and len({(item["min"], item["max"]) for item in numbers}) == 1:
        return f"each from {numbers[0]['min']} to {numbers[0]['max']}"
    bounds = {item["at_least"]: item["letter"] for item in numbers if "at_least" in item}
    texts = []
    for item in node.fields:
        letter = item["letter"]
        if item["unit"] == "truth":
            texts.append(f"{letter} true or false")
        elif item["unit"] == "word":
            *some, last = [f'"{word}"' for word in item["words"]]
            texts.append(f"{letter} {', '.join(some)} or {last}")
        else:
            texts.append(f"{letter} from {item.get('at_least', item['min'])} to {bounds.get(letter, item['max'])}")
    return ", ".join(texts)


def hint(node):
    """How a node is spelt, with its ranges."""
    if not node.row["items"]:
        return f'"{node.name}"'
    letters = ["PLAN" if item["unit"] == "plan" else item["letter"] for item in node.row["items"]]
    inner = letters[0] if len(letters) == 1 else f"[{','.join(letters)}]"
    ranged = range_text(node)
    return f'{{"{node.name}":{inner}}}' + (f", {ranged}" if ranged else "")


def hints(nodes):
    rows = ""
    for node in nodes:
        text = f'r#"{hint(node)}"#'
        if len(text) > 111:
            lines = textwrap.wrap(hint(node).replace('"', '\\"'), 104)
            text = '"' + " \\\n         ".join(lines) + '"'
        rows += f'    ("{node.name}", {text}),\n'
    return f"const NODES: [(&str, &str); {len(nodes)}] = [\n{rows}];\n"


# Files


def engine_files(rows):
    """Each file of the engine that has made rows: where each block begins and ends, and what stands there."""
    nodes = [Node(row) for row in rows]
    leaves, ones, twos = ([node for node in nodes if node.kind == kind] for kind in ENUMS)
    alone = [node for node in leaves if not node.fields]
    with_items = [node for node in leaves if node.fields]
    plain = [node for node in ones if node.is_plain]

    def group(name):
        return [node for node in ones if node.group == name]

    def numbered(some, count):
        return [node for node in some if node.takes_numbers and len(node.fields) == count]

    table = [*twos, *group("delays"), *group("outputs"), *group("rounds"), *with_items]
    groups = [group(name) for name in ("delays", "outputs", "rounds")]
    counts = ("leaf_names", "leaves_with_one", "leaves_with_two", "leaves_with_three", "leaves_with_four")
    return {
        "sched_plan/specs/Schedule.antt": {
            "leaf_in_range : Leaf → Bool\n": ranges(leaves, "leaf"),
            "one_in_range : One → Bool\n": ranges(ones, "one"),
        },
        "sched_plan/specs/ScheduleCode.antt": {
            "leaf_code : Leaf → Gv\n": codes_of(leaves, "leaf"),
            "    let leaves =\n": nodes_at(leaves, "leaf"),
            "one_code : One → Gv\n": codes_of(ones, "one"),
            "    let nodes =\n": nodes_at(ones, "one"),
            "two_code : Two → Gv\n": codes_of(twos, "two"),
            "two_at : ℕ → Two\n": nodes_at(twos, "two"),
        },
        "sched_plan_json/specs/Nodes.antt": {
            "\nnames =": named(alone),
            "\nleaf_rows =": spelt(with_items),
            "\nround_rows =": spelt(groups[2]),
            "\noutput_rows =": spelt(groups[1]),
            "\ndelay_rows =": spelt(groups[0]),
            "\npair_rows =": spelt(twos),
        },
        "sched_plan_json/specs/Node.antt": {
            "leaf_of : LeafNode → Leaf\n": nodes_of(leaves, "leaf", "bare.", "leaf."),
            "one_of : OneNode → One\n": nodes_of(ones, "one", "read.", "plan."),
        },
        "sched_plan_json/src/leaves.rt": [
            variants(leaves, type_read),
            builds_leaves(leaves),
            reads_names(alone),
            reads_leaves(with_items),
        ],
        "sched_plan_json/src/nodes.rt": [variants(ones, type_read), builds_ones(ones), builds_twos(twos)],
        "sched_plan_json/src/spelling.rt": [reads_twos(twos), *map(reads_ones, groups)],
        "sched_plan_json_write/specs/Written.antt": {
            "leaf_json : Leaf → Data\n": writes(leaves, "leaf"),
            "one_json : One → Data → Data\n": writes(ones, "one"),
            "two_word : Two → List ℕ\n": words(twos),
        },
        "sched_plan_json_write/src/leaves.rt": [writes_leaves(leaves)],
        "sched_plan_json_write/src/nodes.rt": [writes_ones(plain)],
        "sched_plan_json_write/src/words.rt": [writes_twos(twos)],
        "sched_plan_node/specs/Names.antt": {
            **{f"{counts[n]} =": named(numbered(leaves, n)) for n in range(5)},
            "one_names =": named(numbered(ones, 0), "single."),
            "ones_with_one =": named(numbered(ones, 1), "single."),
            "ones_with_three =": named(numbered(ones, 3), "single."),
            "two_names =": named(twos, "pair."),
        },
        "sched_plan_node/src/leaves.rt": [by_name(numbered(leaves, n), n) for n in range(5)],
        "sched_plan_node/src/over.rt": [
            *(by_name(numbered(ones, n), n, ["alloc"], ["plan"]) for n in (3, 0, 1)),
            by_name(twos, 0, ["alloc"], ["first", "second"]),
        ],
        "sched_plan_check/specs/PlanFaults.antt": {"item_in : One → Option ℕ\n": items_in(ones)},
        "sched_plan_check/src/below.rt": [items_of(ones)],
        "sched_plan_check/proofs/Tables.antt": {"all_have : HaveForms from_pairs\n": all_have(table)},
        "sched_plan_hint/src/nodes.rt": [hints(nodes)],
    }


BEGINS, ENDS = "// bin/nodes makes these rows.\n", "// end\n"


def blocks(text, made):
    """Each block of a file, as its place in the text and what it should be."""
    if isinstance(made, dict):
        for begins, rows in made.items():
            at = text.index(begins) + len(begins)
            yield at, text.index(" in\n" if "let " in begins else "\n\n", at) + ("let " not in begins), rows
        return
    at = 0
    for rows in made:
        at = text.index(BEGINS, at) + len(BEGINS)
        end = text.index(ENDS, at)
        yield at, text.rindex("\n", 0, end) + 1, rows


def without_layout(text):
    """A text without what `rt fmt` decides: spaces, and commas before a bracket that closes."""
    return re.sub(r",(?=[)\]}])", "", re.sub(r"\s+", "", text.replace("\\\n", "")))


def with_old_rows(old, given):
    """The rows that are given, in the layout that they had where they stood here before."""
    kept = {without_layout(row): row for row in re.split(r"(?m)^(?=\S)", old)}
    return "".join(kept.get(without_layout(row), row) for row in re.split(r"(?m)^(?=\S)", given))


def engine_file(text, made, rows):
    """A file of the engine with the rows that are others, and its lists of variants where those are."""
    for at, end, given in sorted(blocks(text, made), reverse=True):
        if without_layout(text[at:end]) != without_layout(given):
            text = text[:at] + with_old_rows(text[at:end], given) + text[end:]
    return imported(text, [Node(row) for row in rows]) if isinstance(made, dict) else text


def imported(text, nodes):
    """The text with its lists of variants made anew: those that it names, in lines of at most 120 columns."""
    rest = "".join(line for line in text.splitlines(True) if not line.startswith("use "))
    for kind, enum in ENUMS.items():
        module = "leaves" if kind == "leaf" else "nodes"
        begins = f"use Rattle.sched_plan.specs.declared.{module}.{enum}.TheVariants.{{"
        lines = [""]
        for node in nodes:
            if node.kind != kind or not re.search(rf"(?<![\w.]){node.variant}\b", rest):
                continue
            longer = f"{lines[-1]}, {node.variant}" if lines[-1] else node.variant
            if len(begins) + len(longer) + 1 > 120:
                lines.append(node.variant)
            else:
                lines[-1] = longer
        made = "".join(f"{begins}{line}}}\n" for line in lines)
        text = re.sub(rf"(?:^{re.escape(begins)}.*\}}\n)+", lambda _: made, text, flags=re.M)
    return text
