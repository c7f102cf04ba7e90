#!/usr/bin/env python3
"""Gives the names that Rattle makes today to the proofs that walk a function by hand.

    rt check --generated /tmp/names --old-names      in a crate's folder, lists each made name's old and new spelling
    tools/renew.py /tmp/names/names.json crates/NAME

Goals, steps and loops get their new names, a chain of `.before` that ends in a field goes, since a step shows the fields of
those before it, a goal that Rattle proves by itself today goes, and a new one is answered by the search. It is for files of
the older form: it leaves a file whose goals all have today's names.
"""
import json
import os
import re
import sys

WORD = r"[^\s(){}\[\],;.`\"]+"
# The parts of a step that have other names today.
OLDER = {"pre": "requires", "good": "well_formed", "inv": "invariant", "taken": "true", "left": "false", "type-inv": "type_inv", "well-formed": "well_formed"}


def plain(name):
    """A name as the older Rattle wrote it: a dash for each underscore, and no word for the kind of a goal before it."""
    return re.sub(r"^(overflow|nonzero|part|slice-bounds|offset-bounds)-", "", re.sub("_lem$", "", name).replace("_", "-").lower())


def put(old, new, table):
    if old and new:
        table.setdefault(plain(old), new)


def renamed(text, of):
    needs, fields, places, loops, raw, kept, callees = {}, {}, {}, {}, set(), {}, {}
    for old, new in of["needs"]:
        put(old, new, needs)
    for place, name in zip(of["places"], of["places_by_name"]):
        put(place[0], name, places)
        old, new = place[2]
        if place[3] is None and re.fullmatch(re.escape(old) + r"(-[\w-]+)?-\d+", new) and not re.search(r"_known|_told|-arg", old) or re.fullmatch(r"\w+?\d*", old) and place[3] is None and re.search(r"-in-loop-\w+-\d+$", new) and "_known" not in old and "_told" not in old:
            # the value of a variable, which the arguments and the loops name too
            put(old, new, kept)
        else:
            put(old, new, fields)
        if place[3] in of["params"]:
            callees[new] = of["params"][place[3]]
        if place[4]:
            raw.add(place[2][1])
    for (old, new), _ in of["loops"]:
        put(old, new, loops)
        put(old, new, fields)

    def member(match):
        name = match.group(1)
        if name.startswith("Need-"):
            return "tie.Need-" + needs.get(plain(name[5:]), name[5:])
        for kind in ("invariant-", "decreases-"):
            if name.startswith(kind):
                return "tie." + kind + loops.get(plain(name[len(kind):]), name[len(kind):])
        return "tie." + places.get(plain(name), name)

    text = re.sub(r"(?<![\w.-])tie\.(" + WORD + ")", member, text)

    def field(match):
        before = re.search(r"([^\s(){}\[\],;.`\"]*)$", match.string[:match.start()]).group(1)
        name = match.group(1)
        if before in ("args", "ranges", "tie") or re.match(r"\d", name):
            return match.group(0)
        name = (kept.get(plain(name)) if before == "before" else None) or fields.get(plain(name), name)
        name = OLDER.get(name, name)
        if fields.get(plain(before)) in raw:
            name = {"true": "true-raw", "false": "false-raw", "fact": "true"}.get(name, name)
        return "." + name

    def lent(match):
        """What a call left in its n-th parameter has the parameter's name."""
        names, at = callees.get(match.group(1)), match.group(3).count(".1")
        if not names or at >= len(names):
            return match.group(0)
        return f".{match.group(1)}.{match.group(2)}.{names[at]}"

    lines = []
    for line in text.split("\n"):
        if not re.match(r"\s*(pub )?use ", line) and not line.lstrip().startswith("--"):
            line = re.sub(r"(?<=[\w)'₀-₉-])\.(" + WORD + ")", field, line)
            line = re.sub(r"\.(" + WORD + r")\.(new|auto)((?:\.1)*)\.0(?![\w-])", lent, line)
            line = re.sub(r"(?<![\w.])([\w']+)((?:\.before)+)(?=\.(?!before))", r"\1", line)
        lines.append(line)
    return "\n".join(lines)


def aliased(text, of):
    """`let n = c.f in .. n.new.1.0` where f is a call: the parameter's name as at the call itself."""
    callees = {place[2][1]: of["params"][place[3]] for place in of["places"] if place[3] in of["params"]}
    blocks = text.split("\n\n")
    for i, block in enumerate(blocks):
        for name, call in re.findall(r"let ([\w']+) = [\w']+\.(" + WORD + ") in", block):
            names = callees.get(call)
            if names:
                block = re.sub(r"(?<![\w.'-])" + re.escape(name) + r"\.(new|auto)((?:\.1)*)\.0(?![\w-])", lambda m: f"{name}.{m.group(1)}.{names[m.group(2).count('.1')]}" if m.group(2).count(".1") < len(names) else m.group(0), block)
        blocks[i] = block
    return "\n\n".join(blocks)


def unchained(text):
    """`let s = c.before.before in`, where s is only asked for its fields, becomes `let s = c in`."""
    blocks = re.split(r"\n\n", text)
    for i, block in enumerate(blocks):
        for found in list(re.finditer(r"let ([\w']+) = ([\w']+)((?:\.before)+) in", block)):
            name = found.group(1)
            rest = block[found.end():]
            if not re.search(r"(?<![\w.'-])" + re.escape(name) + r"(?![\w'.-])", rest):
                block = block.replace(found.group(0), f"let {name} = {found.group(2)} in", 1)
        blocks[i] = block
    return "\n\n".join(blocks)


def answered(text, of, path):
    """The list of answers in today's order: what is proved by itself goes, what is new is searched for."""
    wanted = [new for _, new in of["needs"]]
    head = re.search(r"tie\.spec((?:\s+[^\s()]+)*)\s*\)", text)
    if not head:
        if wanted:
            print(f"{path}: no list of answers was found")
        return text
    given = head.group(1).split()
    kind = {}
    for name in given:
        found = re.search(r"^" + re.escape(name) + r" : tie\.Need-(" + WORD + r")((?: [^\n]*)?)$", text, re.M)
        if found:
            kind[name] = (found.group(1), found.group(2))
    loops = [name for name in given if name not in kind]
    of_need = {need: name for name, (need, _) in kind.items() if need in wanted}
    order = [name for name in given if name in kind]
    # names that are not known by their spelling, between the same neighbours, in their order
    gone = [n for n in order if kind[n][0] not in wanted]
    new = [w for w in wanted if w not in of_need]
    if gone and new and len(order) == len(wanted):
        for place, name in enumerate(order):
            if name in gone and wanted[place] in new:
                of_need[wanted[place]] = name
                text = re.sub(r"^(" + re.escape(name) + r" : tie\.Need-)" + re.escape(kind[name][0]), lambda m: m.group(1) + wanted[place], text, flags=re.M)
    tail = next((t for _, t in kind.values()), " " + " ".join(loops) if loops else "")
    blocks = text.split("\n\n")
    for name in order:
        if name not in of_need.values():
            blocks = [b for b in blocks if not re.match(re.escape(name) + r" : ", re.sub(r"^(--[^\n]*\n)*", "", b))]
            print(f"{path}: {name} is no goal now")
    args = []
    for place, need in enumerate(wanted):
        if need in of_need:
            args.append(of_need[need])
            continue
        name = need if need not in kind and not re.search(r"^" + re.escape(need) + " :", text, re.M) else need + "-now"
        body = f"{name} c κs = search rules" if re.search(r"requires", need) else f"{name} c = search rules"
        at = max(i for i, b in enumerate(blocks) if "tie.spec" in b)
        blocks.insert(at, f"{name} : tie.Need-{need}{tail}\n{body}")
        args.append(name)
        print(f"{path}: {need} is a new goal")
    text = "\n\n".join(blocks)
    made = " ".join(loops + args)
    text = re.sub(r"tie\.spec(?:\s+[^\s()]+)*\s*\)", lambda m: f"tie.spec {made})" if made else "tie.spec)", text)
    if "search rules" in text and "Rules.{rules}" not in text:
        text = re.sub(r"^(use )", "use borrow.Author.Rules.{rules}\nuse ", text, count=1, flags=re.M)
    return text


def main():
    names, crate = json.load(open(sys.argv[1], encoding="utf-8")), sys.argv[2]
    name = os.path.basename(os.path.abspath(crate))
    for key, of in sorted(names.items()):
        if not key.startswith(f"Rattle-{name}-proofs.") or not key.endswith(".Lts"):
            continue
        path = os.path.join(crate, "proofs", *key[len(f"Rattle-{name}-proofs."):-len(".Lts")].split("."), "Proof.antt")
        if not os.path.exists(path):
            continue
        text = open(path, encoding="utf-8").read()
        if set(re.findall(r"tie\.Need-(" + WORD + ")", text)) == {new for _, new in of["needs"]} and not any(old != new for (old, new), _ in of["loops"] if f"tie.invariant-{old}" in text.split()):
            continue
        new = unchained(aliased(answered(renamed(text, of), of, path), of))
        if new != text:
            open(path, "w", encoding="utf-8").write(new)


main()
