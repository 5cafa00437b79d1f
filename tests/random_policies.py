"""Prints random policies as JSON, a line each, with options for `zsched plan`: STEPS FROM TOOK INPUT WORD, a tab, the
policy. The words are the number of policies and a seed; the same words give the same lines. The policies have the nodes
of schemas/nodes.json."""
import json
import pathlib
import random
import sys

TOP = pathlib.Path(__file__).resolve().parent.parent
MAX_NUMBER = 4611686018427387903
#: Numbers that often are the border of something.
NUMBERS = [0, 1, 2, 3, 5, 7, 10, 60, 100, 999, 1000, 60000, MAX_NUMBER - 1, MAX_NUMBER]


def nodes_over(plans):
    """The nodes over so many policies."""
    nodes = json.loads((TOP / "schemas/nodes.json").read_text())["nodes"]
    return [node for node in nodes if sum(item["unit"] == "plan" for item in node["items"]) == plans]


LEAVES, ONES, TWOS = (nodes_over(plans) for plans in range(3))


def some_number(rng, item):
    """A number that the item may be."""
    if "often" in item:
        return rng.choice(item["often"])
    least, most = item["min"], item["max"]
    known = [number for number in NUMBERS if least <= number <= most]
    return rng.choice([least, *known, rng.randrange(least, min(most, 100_000) + 1)])


def some_item(rng, item):
    """What the item may be, if it is no policy."""
    if item["unit"] == "word":
        return rng.choice(item["words"])
    return rng.random() < 0.5 if item["unit"] == "truth" else some_number(rng, item)


def some_node(rng, node, plans):
    """The node over these policies, with random items."""
    under, items = iter(plans), {}
    for item in node["items"]:
        items[item["letter"]] = next(under) if item["unit"] == "plan" else some_item(rng, item)
    for item in node["items"]:
        least, most = item.get("at_least"), item["letter"]
        if least is not None and items[most] < items[least]:
            items[least], items[most] = items[most], items[least]
    values = list(items.values())
    return {node["name"]: values[0] if len(values) == 1 else values} if values else node["name"]


def some_policy(rng, nodes):
    """A random policy of about so many nodes."""
    if nodes <= 1:
        return some_node(rng, rng.choice(LEAVES), [])
    if nodes >= 3 and rng.random() < 0.5:
        left = rng.randrange(1, nodes - 1)
        return some_node(rng, rng.choice(TWOS), [some_policy(rng, left), some_policy(rng, nodes - 1 - left)])
    return some_node(rng, rng.choice(ONES), [some_policy(rng, nodes - 1)])


def main():
    count, seed = int(sys.argv[1]), int(sys.argv[2])
    rng = random.Random(seed)
    for _ in range(count):
        options = [
            rng.choice([5, 12, 40]),
            rng.choice([0, 1, 1000, MAX_NUMBER - 50]),
            rng.choice([0, 1, 30, 1000]),
            rng.choice([0, 7, 100, MAX_NUMBER]),
            rng.choice([0, 1, 2**31, 2**32 - 1, rng.randrange(2**32)]),
        ]
        print(*options, end="\t")
        print(json.dumps(some_policy(rng, rng.randrange(1, 14)), separators=(",", ":")))


if __name__ == "__main__":
    main()
