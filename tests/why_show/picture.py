"""Holds a rule's picture and its graph against its text: picture.py TEXT SVG DOT [--failures]"""
import re
import sys
import xml.etree.ElementTree as tree

SVG = "{http://www.w3.org/2000/svg}"
failures = "--failures" in sys.argv
text = open(sys.argv[1], encoding="utf-8").read()

states, arcs = {}, []
for line in text[text.index("\nstate 1") :].splitlines():
    if match := re.match(r"state (\d+), (.*)", line):
        number = int(match[1])
        states[number] = not match[2].endswith("not final")
    elif match := re.match(r"  (fails|to (\d+)) +(.*)", line):
        if failures or match[2]:
            arcs.append((number, int(match[2] or 0), match[3]))

picture = tree.parse(sys.argv[2]).getroot()
width, height = (float(picture.get(side)) for side in ("width", "height"))
group = picture.find(f"{SVG}g")
circles = [circle for circle in group.iter(f"{SVG}circle")]
assert len(circles) == len(states) + sum(states.values()) + failures, "rings"
curves = [path for path in group.iter(f"{SVG}path") if "C" in path.get("d")]
assert len(curves) == len(arcs), "arcs"
words = [word.text for word in group.iter(f"{SVG}text")]
assert [word for word in words if re.fullmatch(r"\d+", word)] == [str(state) for state in [*states, *[0] * failures]], "states"
labels = " ".join(word for word in words if ":" in word).split(" ")
assert sorted(labels) == sorted(" ".join(arc[2] for arc in arcs).split(" ")), "labels"

x, y = (float(number) for number in re.findall(r"[-\d.]+", group.get("transform")))
boxes = [[float(box.get(side)) for side in ("x", "y", "width", "height")] for box in group.iter(f"{SVG}rect")]
assert len(boxes) == len(arcs), "boxes"
for at, (left, top, wide, high) in enumerate(boxes):
    assert 0 <= left + x and left + x + wide <= width and 0 <= top + y and top + y + high <= height, "outside"
    for other_left, other_top, other_wide, other_high in boxes[:at]:
        apart = left + wide <= other_left or other_left + other_wide <= left or top + high <= other_top or other_top + other_high <= top
        assert apart, "labels over each other"

graph = open(sys.argv[3], encoding="utf-8").read()
drawn = re.findall(r'^    (\d+) -> (\d+) \[label="((?:[^"\\]|\\.)*)"', graph, re.M)
said = [(int(one), int(other), re.sub(r"\\(.)", lambda escape: " " if escape[1] == "n" else escape[1], label).replace("&amp;", "&")) for one, other, label in drawn]
assert said == arcs, "graph"
assert graph.count("doublecircle") == sum(states.values()), "final states"
