#!/usr/bin/env python3
"""Lists the places of docs/DESIGN-PASS.md in crates/*/src, point by point.

usage: places.py          the counts, a line for each point
       places.py POINT..  the places of these points

Run it at the top of the repository, of any commit. Points 1 and 3 to 7 are searches for text; point 2 compares the
bodies of functions and the fields of types after names and numbers are taken out; point 8 counts answers in proofs/.
"""

import collections
import glob
import re
import sys

NAMES = {
    1: "numbers for refusals, flags with a value, own enums like Option and Result",
    2: "functions and types alike but for names and numbers",
    3: "loops by while and loop",
    4: "equality, conversion and copying of fields by hand",
    5: "facts that stand in the requires of three or more functions",
    6: "arrays of a fixed length",
    7: "switches on what to do",
    8: "answers in proofs",
}
TEXT = {
    1: r"^ *(pub )?(answer|rule|row|level): u64|^ *pub (finished|known|matching): (bool|u64)|(answer|rule): u64[,)]"
    r"|^(pub )?enum (EventReading|Ept|Explanation|Judgement|Through|Ending) "
    r"|fn (answer_to_\w+|own_ground|own_rule|rule_with_answer|eptp_rule|length_of_named|length_at|length_of_event|answer"
    r"|rule|number|reason_number)\(.*-> (u64|usize)|\((answer|rule), ",
    3: r"^ *(while|loop|.* = loop) ",
    4: r"fn (number_of|reason_number|number|answer|rule|values_of|values_at|values_without|flat_context|context_of|with_place"
    r"|place_of|flat_level|flat_reader|reader_of|wide|smaller|touching|moved_to|is_outside|is_in_root|is_in_guest"
    r"|is_ept_in_use|is_current_ep4ta|is_row|is_rows|is_starting_with|kind_of_event)\("
    r"|^ *[a-z]+: (c|context|r|guest)\.[a-z]+,$",
    5: r"requires [a-z_0-9]* ?\{ *(Held part.now|e ≡ event raw.now|valid_here c raw.now ≡ true|whole table.now ≡ true"
    r"|counting ≡ true → .*|count ≡ length .*|first .table_grounds c table.now. ≡ 0) *\}",
    6: r"\[[a-z0-9]+; [A-Z_a-z:0-9]+\]",
    7: r"counting|mode ==",
}


def sources():
    for path in sorted(glob.glob("crates/*/src/*.rt")):
        with open(path, encoding="utf-8") as it:
            yield path, it.read()


def searched(point):
    for path, text in sources():
        for number, line in enumerate(text.split("\n"), 1):
            if re.search(TEXT[point], line):
                yield f"{path}:{number}: {line.strip()}"


def block(text, start):
    depth = 0
    for at in range(start, len(text)):
        depth += {"{": 1, "}": -1}.get(text[at], 0)
        if text[at] == "}" and depth == 0:
            return text[start : at + 1]
    return ""


def twins():
    groups = collections.defaultdict(list)
    words = r"\b(?!(?:let|if|else|match|return|while|loop|for|in|mut|break|true|false)\b)[A-Za-z_]\w*(?:::[A-Za-z_]\w*)*"
    for path, text in sources():
        crate = path.split("/")[1]
        text = re.sub(r"//[^\n]*", "", text)
        for it in re.finditer(r"(?m)^( *)(?:pub )?fn (\w+)", text):
            opens = text.find("\n" + it.group(1) + "{", it.end())
            closes = text.find("\n" + it.group(1) + "}", it.end())
            if opens < 0 or 0 <= closes < opens:
                opens = text.find("{\n", it.end()) - 1
            body = re.sub(r'"[^"]*"', '"', block(text, opens + 1))
            body = re.sub(r"\b0x\w+|\b[0-9]\w*", "0", re.sub(words, "x", body))
            body = re.sub(r"\s+", "", body)
            if len(body) >= 14:
                groups[body].append(f"{crate}::{it.group(2)}")
        for it in re.finditer(r"(?m)^(?:pub )?(?:struct|enum) (\w+)[^{;]*\{", text):
            groups["type" + re.sub(r"\s+", "", block(text, it.end() - 1))].append(f"{crate}::{it.group(1)}")
    for _, names in sorted(groups.items(), key=lambda pair: -len(pair[1])):
        if len(names) > 1:
            yield from (f"{name} (alike: {', '.join(names)})" for name in names)


def answers():
    for path in sorted(glob.glob("crates/*/proofs/**/Answers.antt", recursive=True)):
        with open(path, encoding="utf-8") as it:
            for number, line in enumerate(it.read().split("\n"), 1):
                if re.match(r"pub \S+ : goal\.", line):
                    yield f"{path}:{number}: {line}"


def places(point):
    return list({2: twins, 8: answers}.get(point, lambda: searched(point))())


def main(points):
    if points:
        for point in map(int, points):
            print("\n".join(places(point)))
    else:
        for point in NAMES:
            print(f"{point}  {len(places(point)):4}  {NAMES[point]}")


main(sys.argv[1:])
