MAPS = ("README.md", "docs/MAP.md", "docs/CHANGING.md", "docs/reference.md", "docs/DECISIONS.md", "docs/performance.md", "tests/README.md")

# Crates
for old, new in (("tally", "capped"), ("tell", "report"), ("least", "cycles"), ("settle", "relaxation")):
    crate(old, new)
    sub_quiet(("docs/MAP.md",), rf"(?<![\w`/:-]){old}(?= `)", new)
    sub_quiet(MAPS, rf"`{old}::", f"`{new}::")
    sub_quiet(MAPS, rf"crates/{old}/", f"crates/{new}/")

# transducer: the file of accepted bytes
move("crates/transducer/src/leaf.rt", "crates/transducer/src/accepted.rt")
move("crates/transducer/specs/Leaf.antt", "crates/transducer/specs/Accepted.antt")
move("crates/transducer/proofs/leaf", "crates/transducer/proofs/accepted")
sub(("crates/transducer/src/*.rt",), r"\bmod leaf;", "mod accepted;")
sub(("crates/transducer/src/*.rt",), r"\bleaf::", "accepted::")
sub(("crates/transducer/src/*.rt",), r"use crate::leaf;", "use crate::accepted;")
sub(ALL, r"specs\.Leaf\.", "specs.Accepted.")
sub(("crates/transducer/specs/Lib.antt",), r"pub mod Leaf\b", "pub mod Accepted")
sub_quiet(ALL, r"proofs\.leaf\.", "proofs.accepted.")
sub_quiet(ALL, r"declared\.leaf\.", "declared.accepted.")
sub_quiet(ALL, r"src/leaf\.rt", "src/accepted.rt")
sub_quiet(MAPS, r"`leaf/", "`accepted/")
sub_quiet(MAPS, r"`Leaf(?=[.`])", "`Accepted")

# transducer: the file that tests bytes
move("crates/transducer/src/walk.rt", "crates/transducer/src/refusals.rt")
move("crates/transducer/proofs/walk", "crates/transducer/proofs/refusals")
sub(("crates/transducer/src/*.rt",), r"\bmod walk;", "mod refusals;")
sub(("crates/transducer/src/*.rt",), r"\bwalk::", "refusals::")
sub_quiet(("crates/transducer/**/*.antt",), r"proofs\.walk\.", "proofs.refusals.")
sub_quiet(("crates/transducer/**/*.antt",), r"declared\.walk\.", "declared.refusals.")
sub_quiet(("crates/transducer/must-fail/*.edit",), r"src/walk\.rt", "src/refusals.rt")
sub_quiet(("docs/MAP.md",), r"(?<=transducer )`walk/", "`refusals/")
function("transducer", "refusals", "walk", "diagnose", ("transducer",))
word(("crates/transducer/**/*.antt", "crates/transducer/src/*.rt", "crates/codec/**/*.antt"), "walked", "diagnosis")
function("transducer", "refusals", "look", "validate", ("transducer", "compose", "lattice", "distance", "shortest", "paths", "lookup", "derived", "cascade", "trim", "codec", "claim"))
stem(ALL, "Looked-says", "Validation-says")
stem(ALL, "Looked", "Validation")
stem(("crates/transducer/**/*.antt",), "looked-light", "validation-light")
stem(("crates/transducer/**/*.antt",), "looked-misplaced", "validation-misplaced")
sub_quiet(ALL, r"declared\.Looked\b", "declared.Validation")
# the quick check of arcs
move("crates/transducer/proofs/Glance.antt", "crates/transducer/proofs/FastCheck.antt")
sub(("crates/transducer/**/*.antt",), r"proofs\.Glance\.", "proofs.FastCheck.")
sub(("crates/transducer/proofs/Lib.antt",), r"pub mod Glance\b|mod Glance\b", lambda m: m.group(0).replace("Glance", "FastCheck"))
function("transducer", "check", "glance_at", "fast_check", ("transducer",))
sub_quiet(("crates/transducer/**/*.antt",), r"(?<![\w-])glance(?= \.)", "fast")
sub_quiet(("crates/transducer/**/*.antt",), r"let glance =", "let fast =")
stem(("crates/transducer/**/*.antt", "crates/transducer/src/*.rt"), "Glance-says", "Fast-check-says")
stem(("crates/transducer/**/*.antt", "crates/transducer/src/*.rt"), "Glanced", "Fast-checked")
sub(("crates/transducer/**/*.antt", "crates/transducer/src/*.rt"), r"(?<![\w-])Glance(?![\w-])", "FastCheck")
sub(("crates/transducer/**/*.antt",), r"(?<![\w-])glanced-", "fast-checked-")
function("transducer", "check", "good_at_a_glance", "fields_good", ("transducer",))

# An accepted table with the place of its arcs
move("crates/transducer/proofs/Opened.antt", "crates/transducer/proofs/AcceptedAt.antt")
sub(ALL, r"proofs\.Opened\.", "proofs.AcceptedAt.")
sub(("crates/transducer/proofs/Lib.antt",), r"mod Opened\b", "mod AcceptedAt")
sub_quiet(MAPS, r"`Opened\.", "`AcceptedAt.")
word(ALL, "Opened", "Accepted-at")
sub_quiet(MAPS, r"\bAccepted\.Opened\b", "Accepted.Accepted-at")

# Cycles below zero
CYC = ALL
move("crates/cycles/proofs/Falls.antt", "crates/cycles/proofs/NegativeCycles.antt")
sub(ALL, r"proofs\.Falls\.", "proofs.NegativeCycles.")
sub(("crates/cycles/proofs/Lib.antt",), r"mod Falls\b", "mod NegativeCycles")
sub_quiet(MAPS, r"`Falls\.", "`NegativeCycles.")
word(CYC, "Falling", "Negative-cycle-from")
word(CYC, "Falls", "Some-negative-cycle")
stem(CYC, "falling-among", "negative-cycle-among")
stem(CYC, "falling-anywhere", "negative-cycle-anywhere")
stem(CYC, "falls-round", "negative-cycle-at")
stem(CYC, "falls-to", "negative-run")
stem(CYC, "falling", "negative-cycle")
for a, b in (("Cycles.Falling", "Cycles.Negative-cycle-from"), ("Cycles.Falls", "Cycles.Some-negative-cycle"), ("Cycles.falling-among", "Cycles.negative-cycle-among"),
             ("Cycles.falling-anywhere", "Cycles.negative-cycle-anywhere"), ("Cycles.falling-or-shorter", "Cycles.negative-cycle-or-shorter"), ("Cycles.falling", "Cycles.negative-cycle"),
             ("NegativeCycles.falling", "NegativeCycles.negative-cycle"), ("NoLeast.falling", "NoLeast.negative-cycle")):
    sub_quiet(MAPS, re.escape("`" + a) + r"(?=[-`])", "`" + b)

# --- parameters, fields and locals: plain in code, quoted in formulas
def is_formula(line):
    return any(x in line for x in ("⌜", "⌝", "≡", "(now ", "λ r.", "ensures {", "requires {"))

def local(globs, old, new):
    """A parameter, field or local of code: `new` in code and comments, «new» in formulas."""
    q = f"«{new}»" if "_" in new else new
    for p in files(*globs):
        out = []
        for line in p.read_text().split("\n"):
            if is_formula(line) and not line.lstrip().startswith("//"):
                line = re.sub(rf"(?<![\w\-'«]){old}(?![\w\-'»])", q, line)
            elif line.lstrip().startswith("//"):
                line = re.sub(rf"`{old}`", f"`{new}`", line)
            else:
                line = re.sub(rf"(?<![\w\-'«]){old}(?![\w\-'»(])", new, line)
        # keep
            out.append(line)
        p.write_text("\n".join(out))

def args(globs, old, new):
    """The parameter in proofs' places."""
    q = new.replace("_", "-")
    sub_quiet(globs, rf"(?<= \.args \.){old}(?![\w-])", q)
    sub_quiet(globs, rf"(?<=\(a \.){old}(?= \.now)", q)

# what validation found
TS = ("crates/transducer/src/check.rt", "crates/transducer/src/refusals.rt", "crates/transducer/src/lib.rt")
for old, new, field in (("up", "top_sorted", "top-sorted"), ("writes", "no_output_epsilon", "no-output-epsilon"), ("named", "no_any_input", "no-any-input")):
    local(TS, old, new)
    sub_quiet(("crates/*/src/*.rt",), rf"\b(seen|looked|all|found|validation)\.{old}\b", rf"\1.{new}")
    sub_quiet(("crates/compose/src/*.rt",), rf"\b([lr])\.{old}\b", rf"\1.{new}")
    AN = ("crates/transducer/specs/Check.antt", "crates/transducer/specs/Accepted.antt", "crates/transducer/proofs/FastCheck.antt", "crates/transducer/proofs/Tested.antt",
          "crates/transducer/proofs/refusals/**/*.antt", "crates/transducer/proofs/check/**/*.antt")
    sub_quiet(AN, rf"(?<=\b[rg] \.){old}(?= ≡)", f"«{new}»")
    sub_quiet(("crates/*/proofs/**/*.antt", "crates/*/specs/*.antt"), rf"(?<=\bseen \.){old}(?![\w-])", f"«{new}»")
    sub_quiet(("crates/transducer/specs/Check.antt",), rf"(?<=^  pub ){old}(?= : \(?g )", field)
    sub_quiet(("crates/transducer/specs/Check.antt",), rf"(?m)(?<=^  pub ){old}(?= : )", field)
    sub_quiet(("crates/transducer/proofs/FastCheck.antt",), rf"(?m)(?<=^      ){old}(?= = )", field)
    sub_quiet(("crates/transducer/proofs/FastCheck.antt",), rf"(?m)(?<=^          ){old}(?= = )", field)
    sub_quiet(("crates/transducer/proofs/refusals/**/*.antt",), rf"(?<=fast-check \.ensures \.){old}(?![\w-])", field)

# no arc for any symbol: one name
sub_quiet(("crates/**/*.antt",), r"(?<= \.)all-named(?! \.(?:ensures|result|last|kept))(?! in\b)(?![\w-])", "no-any-says")
sub_quiet(("crates/**/*.antt",), r"(?<![\w\-.])all-named(?= =| :)", "no-any-says")
sub_quiet(("crates/cascade/**/*.antt",), r"(?<![\w\-.])all-named(?=\))", "no-any-says")
function("transducer", "naming", "all_named", "no_any_input", ("transducer", "compose", "lattice", "lookup", "sheet", "cascade", "derived", "claim"))
sub_quiet(("crates/transducer/src/lib.rt",), r"naming::all_named", "naming::no_any_input")
sub_quiet(("crates/*/proofs/**/*.antt",), r"(?<![\w-])(After-|Need-)all-named", r"\1no-any-input")
function("transducer", "naming", "inputs_named", "no_any_among", ("transducer",))
EX = ("crates/compose/src/*.rt", "crates/lattice/src/*.rt", "crates/steps/src/*.rt", "crates/transducer/src/naming.rt", "crates/lookup/src/*.rt", "crates/ambiguity/src/*.rt")
local(EX, "exact", "no_any_input")
args(("crates/*/proofs/**/*.antt",), "exact", "no_any_input")
EXA = ("crates/compose/**/*.antt", "crates/lattice/**/*.antt", "crates/steps/**/*.antt", "crates/transducer/proofs/naming/**/*.antt", "crates/lookup/**/*.antt")
word(EXA, "exact", "no-any")
word(("crates/*/proofs/**/*.antt",), "exact-label", "no-any-label")
word(("crates/*/proofs/**/*.antt",), "exact-any", "no-any-none")
for crate_ in [p.name for p in CRATES.iterdir() if p.is_dir()]:
    for p in files(f"crates/{crate_}/**/*.antt", f"crates/{crate_}/src/*.rt"):
        out = []
        for line in p.read_text().split("\n"):
            if not line.lstrip().startswith(("--", "//")):
                line = re.sub(r"(?<![\w\-'«.])named(?= \(decode| t ≡| u ≡|, any-refusal|, plain|\}| any-refusal| arc\b|$| : Transducer| t = every| t\) 0)", "no-any-input", line)
            out.append(line)
        p.write_text("\n".join(out))
sub_quiet(ALL, r"(?<=Each\.\{fits, )named(?=\})", "no-any-input")
sub_quiet(ALL, r"(?<=cond \()named(?= )", "no-any-input")
for old, new in (("left-named", "left-no-any"), ("right-named", "right-no-any"), ("by-name", "no-any")):
    word(ALL, old, new)
sub_quiet(MAPS, r"`Each\.named`", "`Each.no-any-input`")
sub_quiet(MAPS, r"`transducer::all_named`", "`transducer::no_any_input`")

# weights out of range
local(("crates/compose/src/*.rt", "crates/explore/src/*.rt", "crates/lattice/src/*.rt"), "dear", "overflow")
stem(("crates/compose/**/*.antt", "crates/explore/**/*.antt", "crates/lattice/**/*.antt", "crates/steps/**/*.antt"), "dear", "overflow")

sub_quiet(("crates/compose/**/*.antt", "crates/explore/**/*.antt"), r"(?<=cast-)dear(?![\w-])", "overflow")
sub_quiet(("crates/compose/**/*.antt", "crates/explore/**/*.antt"), r"(?<![\w-])dear₀", "overflow₀")

# functions
function("reach", "stack", "serve", "pop_state", ("reach",))
function("compose", "walking", "serve", "expand_state", ("compose",))
function("lattice", "applying", "serve", "expand_state", ("lattice",))
function("reach", "stack", "empty", "drain_stack", ("reach",))
function("paths", "counts", "push_shut", "push_ready", ("paths",))
function("paths", "counts", "close_arc", "drop_pending", ("paths",))
function("relaxation", "sweep", "by_states", "can_sweep_by_state", ("relaxation", "distance"))
function("paths", "path", "walk", "nth_arcs", ("paths", "listing"))
sub_quiet(("crates/paths/src/lib.rt",), r"path::(walk|nth_arcs) as nth_arcs", "path::nth_arcs")
function("shortest", "walk", "walk", "follow", ("shortest",))

# open arcs of a state
local(("crates/paths/src/counts.rt",), "left", "pending")
args(("crates/paths/proofs/counts/**/*.antt",), "left", "pending")
sub_quiet(("crates/paths/proofs/counts/**/*.antt",), r"(?<=\(l \.)left(?=\))|(?<=\.loop \.)left(?![\w-])|(?<=\.loop2 \.)left(?![\w-])", "pending")
sub_quiet(("crates/paths/proofs/counts/**/*.antt",), r"(?<![\w-])((?:Need-)?(?:mul|add|sub|index|cast|element-copy-out|element-write))-left(?![\w])", r"\1-pending")

# tentative costs
move("crates/relax/specs/Nearest.antt", "crates/relax/specs/Tentative.antt")
sub(ALL, r"specs\.Nearest\.", "specs.Tentative.")
sub(("crates/relax/specs/Lib.antt",), r"mod Nearest\b", "mod Tentative")
word(("crates/relaxation/proofs/*.antt",), "Nearest", "At-best")
word(ALL, "Nearing", "Tentative")
sub_quiet(("docs/MAP.md", "README.md"), r"`Nearest(?=[.`])", "`Tentative")

# the link to the next arc of that label, and another attempt
AG = ("crates/compose/src/entry.rt",)
sub(AG, r"(?<=    )again: bool", "retry: bool")
sub(AG, r"\bagain: (true|false)", r"retry: \1")
sub(AG, r"\bmade\.again\b", "made.retry")
sub(AG, r"again = false", "retry = false")
sub_quiet(("crates/compose/**/*.antt",), r"(?<=; )again(?= = (?:true|false))", "retry")
sub_quiet(("crates/compose/**/*.antt",), r"(?<=\br \.)again(?= ≡)", "retry")
local(("crates/compose/src/*.rt", "crates/steps/src/*.rt"), "again", "next_same_label")
args(("crates/compose/proofs/**/*.antt", "crates/steps/proofs/**/*.antt"), "again", "next_same_label")
word(("crates/steps/**/*.antt", "crates/steps/src/*.rt", "crates/compose/**/*.antt", "crates/compose/src/*.rt"), "Again", "Next-same-label")
sub_quiet(("crates/steps/proofs/lookup/put_chains/Proof.antt",), r"(?<=mul-)again|(?<=element-write-)again", "next-same-label")
sub_quiet(("crates/steps/proofs/lookup/put_chains/Proof.antt", "crates/compose/proofs/walking/*/Proof.antt"), r"(?<=\.loop \.)again(?![\w-])", "next-same-label")
sub_quiet(("crates/steps/proofs/lookup/put_chains/Proof.antt",), r"(?<=Need-mul-)again|(?<=Need-element-write-)again", "next-same-label")

# comments that name what was renamed
function("transducer", "check", "labels_at_a_glance", "labels_bounded", ("transducer",))
def comments(globs, pairs):
    for p in files(*globs):
        t = p.read_text()
        n = t
        for a, b in pairs:
            n = n.replace(a, b)
        if n != t:
            p.write_text(n)
comments(("crates/transducer/**/*.rt", "crates/transducer/**/*.antt"), (
    ("What a look at bytes tells:", "What validating bytes tells:"),
    ("`up` only where each arc leads to a", "`top_sorted` only where each arc leads to a"),
    ("`up` only where each leads to a", "`top_sorted` only where each leads to a"),
    ("-- higher state, `writes` only where each writes a label, `named` only where none is for any symbol.", "-- higher state, `no_output_epsilon` only where each writes a label, `no_any_input` only where none is for any symbol."),
    ("`writes` only where", "`no_output_epsilon` only where"),
    ("the look is `close`", "`close` is set"),
    ("Where a look has told so, which is `known`, no arc is asked.", "If validation has told so, which is `known`, no arc is asked."),
    ("The first part of what a look tells.", "The first part of what validation tells."),
    ("-- What a look tells beside the refusal:", "-- What validation tells beside the refusal:"),
    ("So many arcs to a state make a close look worth its while.", "More facts are gathered only if there are more than this many arcs to a state."),
    ("No source: a closer look is needed.", "No source: the arcs have to be tested one by one."),
    ("with what a glance told of them", "with what the fast check told of them"),
    ("What a glance at arcs tells:", "What the fast check of arcs tells:"),
    ("where the glance is close", "where `close` is set"),
    ("if it is seen at a glance that each passes each test", "if the fast check shows that each passes each test"),
    ("Only a `close` glance gathers", "Only if `close` is set are fields gathered"),
    ("What a glance at arcs answers:", "What the fast check of arcs answers:"),
    ("Arcs tested at a glance:", "The fast check of arcs:"),
    ("the bounds of the glance;", "the bounds of the fast check;"),
))
comments(("crates/distance/**/*.antt", "crates/relaxation/**/*.rt", "crates/relaxation/**/*.antt", "crates/relax/**/*.antt"), (
    ("What a look told is asked, and one sweep is done.", "What validation told is asked, and one sweep is done."),
    ("The facts of a look that hold without one.", "The facts that hold of accepted bytes without validating them."),
    ("The facts of a look that hold of all accepted bytes.", "The facts of validation that hold of all accepted bytes."),
    ("by what a look told:", "by what validation told:"),
    ("and a look told that", "and validation told that"),
    ("by what a look told and arrays of zeros", "by what validation told and arrays of zeros"),
    ("-- Plain only where each look says so.", "-- Plain only where validation says so."),
    ("-- Only where each look says so.", "-- Only where validation says so."),
))
