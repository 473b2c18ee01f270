#!/usr/bin/env python3
"""Turns proofs/F/Proof.antt of the form `tie.close (tie.spec ..)` into Invariants.antt and Answers.antt.

usage: tools/to_answers.py CRATE NAMES [FUNCTION..]

NAMES is the names.json that `rt check --generated DIR --old-names` writes for the crate. Each answer keeps its text; the names of
goals and steps are today's, and a chain of `.before` goes, as today's record of what is known is flat. An answer that is only
`search rules` goes, as the check tries that by itself.
"""
import glob
import json
import os
import re
import sys

CRATES = "crates"
W = r"[^\s(){}.;,@\"«»]+"
alike = lambda it: re.sub(r"[-_]", "", it).lower()


def chunks(text):
    """The declarations of a file, each with the lines of comment above it."""
    out, cur = [], []
    lines = text.split("\n")
    i = 0
    blocks = re.split(r"\n\s*\n", text.strip("\n"))
    return blocks


def known_at(info, place):
    """The steps before a place, newest first, each with its old and new name, its arm and the fields that are called otherwise."""
    by = {p[0]: i for i, p in enumerate(info["places"])}
    out = []
    while place is not None:
        i = by[place]
        _, up, (old, new), callee, fields = info["places"][i]
        fields = list(fields) + ([["lent", lent(callee)]] if callee else [])
        out.append((old, new, info["arms"][i], fields))
        place = up
    return out


LENT = {}


def lent(callee):
    """The names of a function's `&mut` parameters, in order."""
    if callee not in LENT:
        crate, *_, name = callee.split("::")
        LENT[callee] = []
        for p in glob.glob(os.path.join(CRATES, crate, "src", "**", "*.rt"), recursive=True):
            m = re.search(r"fn " + name + r"(?:<[^>]*>)?\(([^)]*)\)", open(p, encoding="utf-8").read())
            if m:
                LENT[callee] = [q[1] for q in re.finditer(r"(\w+): &(?:'\w+ )?mut ", m[1])]
    return LENT[callee]


def flat(body, known, args):
    """Paths: no .before, and today's names of steps."""
    steps, arms, fields, names = {}, [], {}, {}
    for old, new, arm, other in known:
        if old and alike(old) not in steps and not re.search(r"-1(-|$)", new):
            steps[alike(old)] = new
            fields[new] = {a: b for a, b in other if a != "lent"}
            names[new] = next((b for a, b in other if a == "lent"), [])
        if arm:
            for it, step, path in arm[2]:
                arms.append(([alike(step)] + path, [arm[0], it]))
    arms.sort(key=lambda it: -len(it[0]))
    body = re.sub(r"(\.before)+(?![\w-])", "", body)
    for m in re.finditer(r"let ([^\s(){}.;,@:]+) = ([^\s(){};,@]+\.given) in\s*", body):
        body = re.sub(r"(?<![\w.'-])" + re.escape(m[1]) + r"\.", m[2] + ".", body.replace(m[0], ""))

    def one(m):
        parts, out, k, inside = m[1][1:].split("."), [], 0, None
        while k < len(parts):
            it = parts[k]
            if it in ("args", "initial", "ranges") and k + 1 < len(parts):
                out += [it, args.get(parts[k + 1], parts[k + 1])]
                k += 2
                continue
            bare = re.sub(r"_lem$", "", it.strip("«»"))
            if it in ("new", "auto") and k + 1 < len(parts) and parts[k + 1].isdigit():
                at = int(parts[k + 1])
                all_names = {v[at] for v in ([names[inside]] if inside in names else names.values()) if at < len(v)}
                out += [it, all_names.pop() if len(all_names) == 1 else parts[k + 1]]
                k += 2
                continue
            arm = next((a for a in arms if len(parts) - k >= len(a[0]) and [alike(bare)] + parts[k + 1 : k + len(a[0])] == a[0]), None)
            if arm and (alike(bare) not in steps or len(arm[0]) > 1):
                out += arm[1]
                k += len(arm[0])
                continue
            if alike(bare) in steps:
                inside = steps[alike(bare)]
                out.append(inside)
            elif inside in fields and {"taken": "true", "left": "false"}.get(it, it) in fields[inside]:
                out.append(fields[inside][{"taken": "true", "left": "false"}.get(it, it)])
            elif inside and (inside.startswith("if-") or inside.endswith("-test")) and it in ("taken", "left"):
                out.append({"taken": "true", "left": "false"}[it])
            else:
                out.append(it)
            k += 1
        return "." + ".".join(out)

    body = re.sub(r"(?<=[\w'₀-₉])((?:\." + W + ")+)", one, body)
    for old, new in args.items():
        if re.fullmatch(r"t\d+", old):
            body = re.sub(r"\." + old + r"(?![\w'-])", "." + new, body)
    body = re.sub(r"simp length-map at [\w.]+\.well-formed[.\d]*", "search rules", body)
    body = re.sub(r"\.well-formed(?![\w-])", ".well_formed", body)
    body = re.sub(r"(?<=[\w'])\.pre(?![\w'-])", ".requires", body)
    body = re.sub(r"not-true _ ([\w.'-]+)\.true-raw", r"\1.true", body)
    return re.sub(r"not-false _ ([\w.'-]+)\.false-raw", r"\1.false", body)


def convert(crate, name, info, path):
    folder = os.path.dirname(path)
    text = open(path, encoding="utf-8").read()
    called = {a.split(".")[-1]: b.split(".")[-1] for a, b in info["args"] if a.startswith(".args ")}
    places = dict(zip((n for _, n in info["needs"]), (p[0] for p in info["asked_at"])))
    everywhere = [it for p in reversed(info["places"]) for it in known_at(info, p[0])[:1]]
    loops = {alike(a): b for (a, b), _ in info["loops"]}
    loop_vars = {alike(it[0][0]): it[1] for it in info["loops"]}
    changed = info["changed"]
    # tie.spec's arguments, in order
    m = re.search(r"tie\.spec\s+(.*)\Z", text, re.S)
    args = re.findall(W, m[1]) if m else []
    needs = info["needs"]
    heads, uses, answers, invariants, lemmas = [], [], [], [], []
    blocks = chunks(text)
    decls = {}
    order = []
    for b in blocks:
        ls = b.split("\n")
        k = 0
        while k < len(ls) and (ls[k].startswith("--") or ls[k].startswith("use ")):
            k += 1
        head, rest = ls[:k], ls[k:]
        heads += [l for l in head if l.startswith("--") and not rest]
        uses += [l for l in head if l.startswith("use ")]
        note = [l for l in head if l.startswith("--") and rest]
        if rest:
            sig = next(l for l in rest if not re.match(r"\s*unfolding\b", l))
            nm = re.match(r"(?:abbrev )?(?:pub )?(" + W + ") ", sig)
            order.append((nm[1] if nm else None, note, rest))
    notes, gone = [], set()
    goals_named = [n for n in args if not re.match(r"(invariant|decreases)", n)]
    new_of = {}
    if len(goals_named) == len(needs):
        for a, (o, n) in zip(goals_named, needs):
            new_of[a] = n
    else:
        # fewer or more goals today: by their old names
        asked = dict(re.findall(r"(?m)^(" + W + r") : tie\.Need-(\S+)", text))
        bare = lambda it: re.sub(r"^(overflow|nonzero)[-_]", "", it)
        olds = {alike(bare(o)): n for o, n in needs}
        for a in goals_named:
            new = olds.pop(alike(bare(asked.get(a, a))), None)
            if new:
                new_of[a] = new
            else:
                gone.add(a)
        notes.append(f"{name}: {len(goals_named)} answers for {len(needs)} goals; left out {sorted(gone)}; not answered {sorted(olds.values())}")
    local, pending = [], []
    for nm, note, rest in order:
        t = "\n".join(rest)
        mt = re.search(r"tie\.(Need|invariant|decreases)[-]?(\S*)", rest[0])
        if "tie.close" in t or re.search(r"statement M\s*$", rest[0]):
            continue
        if mt and mt[1] in ("invariant", "decreases"):
            # the loop's own name
            lab = (mt[1] + "-" + mt[2])
            loop = mt[2]
            new_loop = loops.get(alike(loop), loop)
            vars_ = loop_vars.get(alike(loop))
            idx = [alike(it[0][0]) for it in info["loops"]].index(alike(loop)) if vars_ else 0
            ch = changed[idx] if idx < len(changed) else []
            eq = re.search(r"(?m)^" + re.escape(nm) + r"((?:\s+(?!=\s)" + W + r"|\s+\([^)]*\))*)\s*=", t)
            params = eq[1].split()
            body = t[eq.end():]
            names = {}
            expect = [("l.initial." if c else "l.") + v for v, c in zip(vars_, ch)] + ["l." + v for v, c in zip(vars_, ch) if c]
            if len(params) != len(expect):
                notes.append(f"{name}: {nm} has {len(params)} parameters for {expect}")
            for p, e in zip(params, expect):
                names[p] = e
            def sub(mm):
                it = mm[0]
                return names.get(it, it)
            body = re.sub(r"(?<![^\s(){};,@])" + W, sub, body)
            unf = [l for l in rest if re.match(r"\s*unfolding\b", l)]
            kw = f"{mt[1]}-{new_loop}"
            invariants.append("\n".join(note + [f"abbrev pub {kw} : goal.{kw}"] + unf + [f"{kw} l ={body}"]))
            continue
        if nm in new_of and mt:
            new = new_of[nm] or mt[2]
            eq = re.search(r"(?m)^" + re.escape(nm) + r"((?:\s+(?!=\s)" + W + r")*)\s*=", t)
            params = eq[1].split()
            params = [p for p in params if p != "κs"]
            body = t[eq.end():]
            if body.strip() == "search rules":
                continue
            unf = [l for l in rest if re.match(r"\s*unfolding\b", l)]
            pending.append((new, note, unf, params, body))
            continue
        if nm in gone:
            continue
        at = re.match(W + r" :\s*\((" + W + r") : tie\.[^()]*\)\s*→?\s*", t)
        if at:
            # a lemma about what is known at a place: it is said again where it is used
            rest_of = t[at.end():]
            eq = re.search(r"(?m)^" + re.escape(nm) + r"((?:\s+(?!=\s)" + W + r")*)\s*=", rest_of)
            unf = [l for l in rest_of[: eq.start()].split("\n") if re.match(r"\s*unfolding\b", l)]
            claim = "\n".join(l for l in rest_of[: eq.start()].split("\n") if not re.match(r"\s*unfolding\b", l)).strip()
            ps = eq[1].split()
            local.append((nm, at[1], claim, ps, rest_of[eq.end():].strip(), note, unf))
            continue
        lemmas.append("\n".join(note + [flat(t, everywhere, called)]))
    for new, note, unf, params, body in pending:
        known = known_at(info, places[new]) if new in places else everywhere
        body = flat(body, known, called)
        lets, wanted = [], body
        for nm, v, claim, ps, what, lnote, lunf in reversed(local):
            use = re.compile(r"(?<![\w.'-])\(?(?<![\w.'-])" + re.escape(nm) + r"(?![\w'-])\s+(?:\((" + W + r")\)|(" + W + r"))")
            cite = re.compile(r"(?<![\w.'-])" + re.escape(nm) + r"(?![\w'-])\s+(?:\(" + W + r"\)|" + W + r")")
            if not cite.search(wanted):
                continue
            c = params[-1] if params else "c"
            on = lambda text: re.sub(r"(?<![\w.'-])" + re.escape(v) + r"(?![\w'-])", c, flat(text, known, called))
            first = re.sub(r"(?<![\w.'-])" + re.escape(ps[0]) + r"(?![\w'-])", c, flat(what, known, called)) if ps else flat(what, known, called)
            if len(ps) > 1:
                first = "λ " + " ".join(ps[1:]) + ".\n    " + first
            lets.insert(0, (nm, on(claim), first))
            unf = unf + [l for l in lunf if l not in unf]
            wanted = wanted + "\n" + first
            body = cite.sub(nm, body)
            lets = [(a, cite.sub(nm, b), cite.sub(nm, d)) for a, b, d in lets]
        said = {it[0] for it in local}
        unf = [" ".join(w for w in l.split(" ") if w not in said) for l in unf]
        unf = [l for l in unf if l.strip() != "unfolding"]
        if lets:
            body = "\n" + "".join(f"    let {a} : {b}\n    = {d} in\n" for a, b, d in lets) + "    " + body.strip()
        answers.append("\n".join(note + [f"pub {new} : goal.{new}"] + unf + [(f"{new} " + " ".join(params)).rstrip() + " =" + body]))
    goal = f"use Rattle.{crate}.proofs.{name.replace('::', '.')}"
    keep = [u for u in uses if not re.search(r"\.(Statement\.\{statement\}|Tie as tie)\s*$", u)]
    if answers or lemmas:
        out = "\n".join(heads + keep + [goal + ".Goals as goal"]) + "\n\n" + "\n\n".join(lemmas + answers) + "\n"
        out = re.sub(r"tie\.(Start|In-\S+|After-\S+|Then\S+|Else\S+|At-\S+)", lambda m: "goal." + m[1], out)
        open(os.path.join(folder, "Answers.antt"), "w", encoding="utf-8").write(out)
    if invariants:
        out = "\n".join(heads + keep + [goal + ".Given as goal"]) + "\n\n" + "\n\n".join(invariants) + "\n"
        open(os.path.join(folder, "Invariants.antt"), "w", encoding="utf-8").write(out)
    os.remove(path)
    return notes


def main(argv):
    global CRATES
    crate, names = argv[:2]
    CRATES = os.path.join(os.path.abspath(crate), "..")
    only = set(argv[2:])
    d = json.load(open(names))
    short = os.path.basename(os.path.abspath(crate))
    for key, info in d.items():
        m = re.match(r"Rattle-" + short + r"-proofs\.(.*)\.Lts$", key)
        if not m or (only and m[1] not in only):
            continue
        path = os.path.join(crate, "proofs", *m[1].split("."), "Proof.antt")
        if not os.path.exists(path):
            print("no", path)
            continue
        if "tie.close" not in open(path, encoding="utf-8").read():
            print("a walk:", path)
            continue
        for n in convert(short, m[1], info, path):
            print(n)


if __name__ == "__main__":
    main(sys.argv[1:])
