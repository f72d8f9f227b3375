# Reads the objects that `./vet --json` answers and says in words what they say, as `./vet` does: for tests/vet.
import json
import sys


def number(digits):
    return f"{digits} ({int(digits):#x})"


def called(rule):
    return f"rule {rule.get('name', rule['rule'])}: {rule['text']}"


def linked(link):
    return f"{number(link['from'])} .. {number(link['to'])} fail " + ("the fixed bits" if link["rule"] == "bits" else called(link))


def asked(said):
    if said["ask"] == "none":
        return ["no word fits"] + [linked(link) for link in said["chain"]]
    if said["ask"] == "one":
        return [f"one word fits: {said['word']} ({int(said['word']):#x}, 0b{said['bits']})"]
    least, most = number(said["smallest"]), number(said["largest"])
    return [f"many words fit, {said['count']} of {said['of']}: the smallest is {least}, the largest {most}"]


def shown(sheet):
    lines = [f"word {sheet['width']}"]
    for i in range(len(sheet["rules"]) + 1):
        lines += ["mark" for at in sheet["marks"] if at == i]
        for rule in sheet["rules"][i : i + 1]:
            named = f"{rule['name']}: " if "name" in rule else ""
            lines.append(f"{named}{rule['text']}  # rule {rule['rule']}")
    return lines


def words(said):
    if "ask" in said:
        return asked(said)
    if "count" in said:
        return [f"{said['count']} of {said['of']} words fit"]
    if "list" in said:
        return [number(x) for x in said["list"]]
    if "why" in said:
        x = number(said["why"])
        return [f"{x} fails {called(rule)}" for rule in said["fails"]] or [f"{x} meets every rule"]
    return shown(said["show"])


before = 0
for text in sys.stdin:
    said = json.loads(text)
    assert before < said["line"], text
    before = said["line"]
    for line in words(said):
        print(line)
