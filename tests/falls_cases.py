"""Made-up edits, what rt says of them and logs of their checks, for tests/falls.py, one for each way to fall: python3 tests/falls_cases.py leaves with 1 where
one is judged wrongly."""
import pathlib
import sys
import tempfile

import falls

# The unedited crate, and what edits make of its files.
CODE, OTHER_CODE = [f"// a crate\npub fn wrap(n: u8) -> u8\n{{\n    {says}\n}}\nfn above(n: u8) -> u8 {{ wrap(n) }}\n" for says in ("n", "0")]
PROOF = "-- a proof\npub returns : goal.returns\nreturns c = search rules\n\npub returns-2 : goal.returns-2\nreturns-2 c = search rules\n"
LOOP = "-- a proof\npub invariant-loop-i : goal.invariant-loop-i\ninvariant-loop-i = n ≡ n\n"
OPEN = "use {laws}\n\nmodule _ (n : ℕ) where\n  first : n ≡ n\n  first = refl\n\n"
LAWS = OPEN + "  pub law {ℓ} : n ≡ n\n  law =\n      first\n\n      ∙ refl\n\n  next : n ≡ n\n  next = law\n"
ONE = {"src/lib.rt": CODE, "src/inner.rt": CODE, "specs/Spec.antt": "-- a definition\nspec = 1\n", "proofs/wrap/Answers.antt": PROOF,
       "proofs/wrap/Invariants.antt": LOOP, "proofs/Laws.antt": LAWS}
# Its method, its impl of a trait of another crate and a trait of its own, and the proof of the method.
TYPES = "// types\nimpl Thing {\n    fn wrap(self) -> u8 { 5 }\n}\nimpl Load for u8 {\n    fn load() -> u8 { 1 }\n}\npub trait Own {\n    fn due() -> u8;\n}\n"
ONE |= {"src/types.rt": TYPES, "proofs/types/Thing/wrap/Answers.antt": "-- a proof\npub returns-in-Ok : goal.returns-in-Ok\nreturns-in-Ok c = refl\n"}
# The log of its check.
UNEDITED = """\
struct one::types::Thing: proved
impl one::types::U8Load: proved
trait one::types::Own: proved
fn one::wrap: proved
fn one::above: proved
fn one::fn::above::map+FnMut::call_mut: proved
fn one::inner::wrap: proved
fn one::inner::above: proved
fn one::types::Thing::wrap: proved
fn one::types::U8Load::load: proved
fn one::types::U8Load::size: not proved
logic=proved functions=6"""
# What the check makes of its functions, where no answer says so.
GOALS = {"one::wrap": ["returns", "returns-2", "loop-i-preserved"], "one::inner::wrap": ["returns", "returns-2"], "one::above": ["returns"],
         "one::types::U8Load::load": ["returns"], "one::types::U8Load::size": ["returns"], "one::types::Own::due": ["returns"]}


# The replacements of made-up edits: for each file the old and the new texts.
EDIT = {"src/lib.rt": [("    n", "    0")]}
DEFINED = {"specs/Spec.antt": [("spec = 1", "spec = 2")]}
REMARK = {"src/lib.rt": [("// a crate", "// the crate")], "specs/Spec.antt": [("-- a definition", "-- one definition")]}
OTHER_PROOF = {"proofs/wrap/Answers.antt": [("returns-2 c = search rules", "returns-2 c = refl")]}
OTHER_LOOP = {"proofs/wrap/Invariants.antt": [("invariant-loop-i = n ≡ n", "invariant-loop-i = 0 ≡ 0")]}
ELSEWHERE = {"proofs/Laws.antt": [("use {laws}", "use {laws, more}")]}
WITH_HELPER = {"src/lib.rt": [("    n", "    0"), ("fn above", "fn helper(n: u8) -> u8 { n } /* its own */ fn above")]}
APART = {"src/lib.rt": [("    n", "    0"), ("fn above", "fn  helper (n: u8) -> u8 { n } fn above")]}
HIDDEN = {"src/lib.rt": [("    n", "    0"), ("fn above", "fn /* its own */ helper(n: u8) -> u8 { n } fn above")]}
METHOD = {"src/types.rt": [("{ 5 }", "{ 0 }")]}
WITH_METHOD = {"src/types.rt": [("impl Thing {", "impl Thing { fn helper() -> u8 { 1 }"), ("{ 5 }", "{ 0 }")]}
NAMED_ALIKE = {"src/types.rt": [("impl Thing {", "impl Other { fn wrap(self) -> u8 { 1 } } impl Thing {"), ("{ 5 }", "{ 0 }")]}
GONE = {"src/lib.rt": [("    m", "    0")]}


def with_laws(old, new):
    assert LAWS.count(old) == 1
    return {**DEFINED, "proofs/Laws.antt": [(old, new)]}


# What rt says of an edit, and lines of the log of its check.
R = f"{falls.REFUSED}./proofs/wrap/Answers.antt:5:13: error: `returns`: the two types differ"
ONLY_NAMES = "refused, as it must be (only because a proof file names what the edit took away, so this says little of the contract: change a value and keep the names): ./proofs/wrap/Answers.antt:5:13: error: `returns`: record `Lts.Start` has no field `called`"
LIMIT = "refused, as it must be (only by a limit of the prover, which gave no verdict, so this says less of the contract: choose a change that it refuses sooner): ./proofs/Laws.antt:5:13: error: `law`: antt ran out of stack"
BARELY, BAD, MISSED, UNTRIED = "refused, as it must be", "BAD EDIT: it changes nothing", "NOT REFUSED: the crate is still proved with this edit", "NOT TRIED: its check was killed"
FACT = "./proofs/wrap/Answers.antt:5:13: error: `returns`: the two types differ\n  expected type `a`, but this has type `b`\nfn one::wrap: not proved"
LOOPS = "./proofs/wrap/Invariants.antt:5:13: error: `loop-i-preserved`: the two types differ"
LAW = "note: no function with a body is declared\n./proofs/Laws.antt:5:13: error: `law`: the two types differ"
NOTE = "note: src/lib.rt:6:1: it is not proved that what the function ensures holds when it returns (`returns`); `search` gave up at one of its limits"
MADE = "fn one::inner::wrap: no proof: expected answers in ./proofs/inner/wrap/Answers.antt; `search` did not prove `returns-2`"
TWO = "fn one::inner::wrap: no proof: expected answers in ./proofs/inner/wrap/Answers.antt; `search` did not prove `returns-2` and `returns`; it calls `one::above`, which is not proved"
ABOVE = "fn one::above: no proof: expected answers in ./proofs/above/Answers.antt; `search` did not prove `returns`"
FOLLOWS = "./proofs/above/Answers.antt:9:1: error: 2 declarations that depend on `close`, which was not admitted, were not checked: a, b"
REJECTED = "./proofs/Laws.antt:9:1: error: 1 declaration that depends on `first`, which was rejected, was not checked: next"
CALLS = "fn one::above: not proved; it calls `one::inner::wrap`, which is not proved\nfn one::wrap: no proof: it calls `one::a` and `one::b`, which are not proved"
NO_NEED = "./proofs/wrap/Answers.antt:5:11: error: `returns`: `goal.returns`: module `T` has no `returns` that can be named from here"
NO_NAME = "./proofs/Laws.antt:5:13: error: `law`: `laww` is not in scope; did you mean `law`?"
NO_MODULE = "./proofs/Laws.antt:1:9: error: module `Rattle.one.specs` has no `Lawss` that can be named from here"
NO_FIELD = "./proofs/wrap/Answers.antt:5:13: error: `returns`: record `Lts.Start`\n  has no field `called`"
CONTRACT = "src/lib.rt:3:5: error: `ensures-1`: the two types differ"
UNREAD = "./proofs/Laws.antt:5:1: error: this line starts at column 1"
NO_PROOF = "fn one::above: no proof: its contract is not read"
BOTH = "fn one::above: no proof: it calls `one::inner::wrap`, which is not proved; and more"
BARE, TYPE = "fn one::above: not proved", "struct one::Pair: not proved"
ELSEWHERE_ERROR = "../two/proofs/Laws.antt:5:1: error: `law`: the two types differ"
OWN_LAW, LAWS_TOLD = LAW.replace("`law`", "`helper`"), LAW.replace("`law`", "`laws`")
NEVER = FACT.replace("`returns`", "`loop-again`")
HELPED = "fn one::helper: proved"
UNHELPED = "fn one::helper: no proof: expected answers in ./proofs/helper/Answers.antt; `search` did not prove `returns`"

AT_METHOD, AT_IMPL = "falls: one::types::Thing::wrap returns-in-Ok", "falls: one::types::U8Load::load returns"
OF_METHOD = "./proofs/types/Thing/wrap/Answers.antt:3:19: error: `returns-in-Ok`: the two types differ\nfn one::types::Thing::wrap: not proved"
OF_IMPL = "fn one::types::U8Load::load: no proof: expected answers in ./proofs/types/U8Load/load/Answers.antt; `search` did not prove `returns`"
WAITS = "impl one::types::U8Load: not proved; it waits for the proof of `load`\nimpl one::types::Pair: not proved; it waits for the proof of `a`, `b` and `c`"
NO_IMPL, WAITS_AND_MORE = "impl one::types::U8Load: not proved", WAITS.splitlines()[0] + "; and more"
CLOSURE = "fn one::fn::above::map+FnMut::call_mut: no proof: it calls `one::wrap`, which is not proved"
ASKING = "fn one::fn::helper::map: proved where its callers give what it asks"
METHOD_HELPED = "fn one::types::Thing::helper: proved"
METHOD_UNHELPED = "fn one::types::Thing::helper: no proof: expected answers in ./proofs/types/Thing/helper/Answers.antt; `search` did not prove `returns`"

# (what is tried, the edit's second line, the log of its check, the files that the edit changes, what is said of it, and its label where that counts)
FALLS = "as it names"
AT_WRAP, AT_LAW, AT_INNER = "falls: one::wrap returns", "falls: one/proofs/Laws.antt law", "falls: one::inner::wrap returns-2"
CASES = [
    ("a goal of a function", AT_WRAP, FACT, EDIT, FALLS),
    ("a goal of a loop", "falls: one::wrap loop-i-preserved", LOOPS, EDIT, FALLS),
    ("a law", AT_LAW, LAW, DEFINED, FALLS),
    ("a goal that rattle tries alone, behind what follows from it", AT_INNER, f"{NOTE}\n{FOLLOWS}\n{CALLS}\n{MADE}", EDIT, FALLS),
    ("the first of two goals", AT_INNER, TWO, EDIT, FALLS),
    ("one case of a goal that the check goes through by cases", "falls: one::above returns", ABOVE.replace("`returns`", "`returns-4`"), EDIT, FALLS),
    ("a case, named by its number", "falls: one::above returns-4", ABOVE.replace("`returns`", "`returns-4`"), EDIT, "it falls at one::above returns"),
    ("the second of two goals, named as if it were a case", "falls: one::inner::wrap returns", MADE, EDIT, "it falls at one::inner::wrap returns-2"),
    ("a case of a goal that is none", "falls: one::above loop-i-preserved", ABOVE.replace("`returns`", "`loop-i-preserved-2`"), EDIT, "it falls at one::above loop-i-preserved-2"),
    ("behind a law that was not checked", AT_WRAP, f"{REJECTED}\n{FACT}", EDIT, FALLS),
    ("beside a helper that is proved", AT_WRAP, f"{FACT}\n{HELPED}", WITH_HELPER, FALLS),
    ("before a name that is missing", AT_LAW, f"{LAW}\n{NO_NAME}", EDIT, FALLS),
    ("behind the named one a line that is not understood", AT_WRAP, f"{FACT}\n{NO_PROOF}\n{BARE}", EDIT, FALLS),
    ("a law beside one that is mended", AT_LAW, LAW, with_laws("first = refl", "first = sym refl"), FALLS),
    ("a law before one that is mended", AT_LAW, LAW, with_laws("next = law", "next = sym law"), FALLS),
    ("beside another file of proofs", AT_WRAP, FACT, {**EDIT, **ELSEWHERE}, FALLS),
    ("a changed proof that is listed", AT_WRAP, FACT, {**EDIT, **OTHER_PROOF}, FALLS, "listed"),
    ("a goal of a method", AT_METHOD, OF_METHOD, METHOD, FALLS),
    ("a goal of an impl's method, behind what waits for it", AT_IMPL, f"{WAITS}\n{OF_IMPL}", METHOD, FALLS),
    ("beside a method that is proved", AT_METHOD, f"{OF_METHOD}\n{METHOD_HELPED}", WITH_METHOD, FALLS),
    ("beside a method of a name that there is, proved", AT_METHOD, f"{OF_METHOD}\nfn one::types::Other::wrap: proved", NAMED_ALIKE, FALLS),
    ("a method, named without its type", "falls: one::types::wrap returns-in-Ok", OF_METHOD, METHOD, "it falls at one::types::Thing::wrap returns-in-Ok"),
    ("a method, named with another type", "falls: one::types::Other::wrap returns-in-Ok", OF_METHOD, METHOD, "it falls at one::types::Thing::wrap returns-in-Ok"),
    ("a method that the crate has not", "falls: one::types::Other::wrap returns-in-Ok", OF_METHOD.replace("Thing", "Other").splitlines()[0], METHOD, "unedited crate"),
    ("a method that the unedited crate does not prove", AT_IMPL.replace("load", "size"), OF_IMPL.replace("load", "size"), METHOD, "not proved: one::types::U8Load::size"),
    ("a method that is only asked for", "falls: one::types::Own::due returns", OF_IMPL.replace("U8Load/load", "Own/due").replace("U8Load::load", "Own::due"), METHOD, "not proved: one::types::Own::due"),
    ("a method's goal that it has not", AT_METHOD.replace("in-Ok", "in-No"), OF_METHOD.replace("in-Ok", "in-No"), METHOD, "unedited crate"),
    ("a helping method that is not proved", AT_METHOD, f"{OF_METHOD}\n{METHOD_UNHELPED}", WITH_METHOD, "not proved: one::types::Thing::helper"),
    ("a helping method that is not mentioned", AT_METHOD, OF_METHOD, WITH_METHOD, "not proved: one::types::helper"),
    ("a helping method that is proved elsewhere", AT_METHOD, f"{OF_METHOD}\nfn one::inner::helper: proved", WITH_METHOD, "not proved: one::types::helper"),
    ("a method of a name that there is, not mentioned", AT_METHOD, OF_METHOD, NAMED_ALIKE, "not proved: one::types::wrap"),
    ("ahead an impl without a reason", AT_IMPL, f"{NO_IMPL}\n{OF_IMPL}", METHOD, "not understood"),
    ("ahead an impl that waits, and more", AT_IMPL, f"{WAITS_AND_MORE}\n{OF_IMPL}", METHOD, "not understood"),
    ("beside a closure of a helper's that is proved where it is called as it asks", AT_WRAP, f"{FACT}\n{HELPED}\n{ASKING}", WITH_HELPER, FALLS),
    ("beside a closure that is proved, and more", AT_WRAP, f"{FACT}\n{HELPED}\n{ASKING}; and more", WITH_HELPER, "not proved: one::fn::helper::map"),
    ("beside a closure that waits", AT_WRAP, f"{FACT}\n{CLOSURE}", EDIT, FALLS),
    ("beside a closure of the edit's own that waits", AT_WRAP, f"{FACT}\n{CLOSURE.replace('map', 'filter')}", EDIT, "not proved: one::fn::above::filter"),
    ("beside a closure of a helper's that waits", AT_WRAP, f"{FACT}\n{HELPED}\n{CLOSURE.replace('above', 'helper')}", WITH_HELPER, "not proved: one::fn::helper::map"),
    ("another function", "falls: one::unwrap returns", FACT, EDIT, "it falls at one::wrap returns"),
    ("another goal", "falls: one::wrap returns-2", FACT, EDIT, "it falls at one::wrap returns"),
    ("another law", "falls: one/proofs/Laws.antt other", LAW, EDIT, "it falls at one/proofs/Laws.antt law"),
    ("the named one comes second", AT_WRAP, f"{LAW}\n{FACT}", EDIT, "it falls at one/proofs/Laws.antt law"),
    ("only what follows", "falls: one::above close", f"{FOLLOWS}\n{CALLS}", EDIT, "no error"),
    ("a name that is missing", AT_LAW, NO_NAME, EDIT, "a name is missing"),
    ("a name that is missing, before the named one", AT_WRAP, f"{NO_NAME}\n{FACT}", EDIT, "a name is missing"),
    ("a module that is missing", "falls: one/proofs/Laws.antt None", NO_MODULE, EDIT, "a name is missing"),
    ("a goal that is missing", AT_WRAP, NO_NEED, EDIT, "a name is missing"),
    ("a step that is missing", AT_WRAP, NO_FIELD, EDIT, "a name is missing"),
    ("a contract that says nothing", "falls: one/src/lib.rt ensures-1", CONTRACT, EDIT, "no fact"),
    ("a file that is not read", "falls: one/proofs/Laws.antt None", UNREAD, EDIT, "no fact"),
    ("a helper that is not proved", AT_WRAP, f"{FACT}\n{UNHELPED}", WITH_HELPER, "not proved: one::helper"),
    ("a helper that is not mentioned", AT_WRAP, FACT, WITH_HELPER, "not proved: one::helper"),
    ("no `falls:`", "file: src/lib.rt", FACT, EDIT, "second line"),
    ("a place without a fact", "falls: one::wrap", FACT, EDIT, "second line"),
    ("no error", AT_WRAP, "logic=proved", EDIT, "no error"),
    ("a text that is not there", AT_WRAP, FACT, GONE, "cannot be made"),
    ("only the proof is changed", AT_WRAP, FACT, OTHER_PROOF, "nothing under src/ or specs/"),
    ("only the proof is changed, and listed", AT_WRAP, FACT, OTHER_PROOF, "nothing under src/ or specs/", "listed"),
    ("only comments are changed", AT_WRAP, FACT, REMARK, "nothing under src/ or specs/"),
    ("the proof is changed too", AT_WRAP, FACT, {**EDIT, **OTHER_PROOF}, "it changes the proof of one::wrap returns"),
    ("the invariant is changed too", AT_WRAP, FACT, {**EDIT, **OTHER_LOOP}, "it changes the proof of one::wrap returns"),
    ("the law's first line is changed", AT_LAW, LAW, with_laws("law {ℓ} : n ≡ n", "law : n ≡ n"), "it changes the proof of one/proofs/Laws.antt law"),
    ("the law's last line is changed", AT_LAW, LAW, with_laws("∙ refl", "∙ first"), "it changes the proof of one/proofs/Laws.antt law"),
    ("the law is taken away", AT_LAW, LAW, with_laws("pub law {ℓ} :", "pub other :"), "it changes the proof of one/proofs/Laws.antt law"),
    ("listed, and the proof is not changed", AT_WRAP, FACT, EDIT, "leaves the proof of one::wrap returns as it is", "listed"),
    ("a law of the edit's own", "falls: one/proofs/Laws.antt helper", OWN_LAW, with_laws("  next :", "  helper : n ≡ n   next :"), "unedited crate"),
    ("a law that is only used", "falls: one/proofs/Laws.antt laws", LAWS_TOLD, DEFINED, "unedited crate"),
    ("a law in a file that the crate has not", "falls: one/proofs/New.antt law", LAW.replace("Laws", "New"), DEFINED, "unedited crate"),
    ("a goal that the unedited function has not", "falls: one::wrap loop-again", NEVER, EDIT, "unedited crate"),
    ("a function that the crate has not", "falls: one::gone returns", FACT.replace("fn one::wrap: not proved", "").replace("wrap", "gone"), EDIT, "unedited crate"),
    ("a helper set apart, not proved", AT_WRAP, f"{FACT}\n{UNHELPED}", APART, "not proved: one::helper"),
    ("a helper set apart, not mentioned", AT_WRAP, FACT, APART, "not proved: one::helper"),
    ("a helper that only the log shows", AT_WRAP, f"{FACT}\n{UNHELPED}", HIDDEN, "not proved: one::helper"),
    ("ahead another function, found by `search`", AT_INNER, f"{ABOVE}\n{MADE}", EDIT, "it falls at one::above returns"),
    ("ahead another function, for another reason", AT_INNER, f"{NO_PROOF}\n{MADE}", EDIT, "not understood"),
    ("ahead another function, for a call and more", AT_INNER, f"{BOTH}\n{MADE}", EDIT, "not understood"),
    ("ahead another function, without a reason", AT_INNER, f"{BARE}\n{MADE}", EDIT, "not understood"),
    ("ahead a type that is not proved", AT_INNER, f"{TYPE}\n{MADE}", EDIT, "not understood"),
    ("ahead an error elsewhere", AT_LAW, f"{ELSEWHERE_ERROR}\n{LAW}", EDIT, "it falls at one/../two/proofs/Laws.antt law"),
    ("ahead an error without a place", AT_WRAP, f"error: a library is missing\n{FACT}", EDIT, "not understood"),
]
# What rt may say of an edit whose log is good: (what is tried, rt's words or None, what is said of it)
WORDS = [
    ("refused", R, FALLS),
    ("refused, and no more is said", BARELY, "refused at a fact"),
    ("only names that are missing", ONLY_NAMES, "refused at a fact"),
    ("only a limit", LIMIT, "refused at a fact"),
    ("not refused", MISSED, "refused at a fact"),
    ("a bad edit", BAD, "refused at a fact"),
    ("not tried", UNTRIED, "refused at a fact"),
    ("nothing said", None, "it was not tried"),
]


def write(file, text):
    file.parent.mkdir(parents=True, exist_ok=True)
    file.write_text(text)


def judged(second, words, log, changed, label="edit"):
    with tempfile.TemporaryDirectory() as room:
        root = pathlib.Path(room)
        for file, text in ONE.items():
            write(root / "crates/one" / file, text)
        lines = [line for file, pairs in changed.items() for old, new in pairs for line in (f"file: {file}", f"old: {old}", f"new: {new}")]
        write(root / f"crates/one/must-fail/{label}.edit", "\n".join(["What is wrong.", second, *lines]) + "\n")
        falls.checked = lambda still, folder: (log + "\nlogic=not-proved").splitlines()
        return falls.judge(root, root, "one", label, {} if words is None else {f"one/{label}": words}, falls.proved(UNEDITED.splitlines()))


wrong, falls.MENDED = [], {"one/listed": "seen to be right"}
falls.goals = lambda root, crate, function: GOALS.get(function, [])
tried = [(what, said, judged(second, R, log, changed, *label)) for what, second, log, changed, said, *label in CASES]
tried += [(what, said, judged(AT_WRAP, words, FACT, EDIT)) for what, words, said in WORDS]
for what, said, (right, told) in tried:
    if right != (said == FALLS) or said not in told:
        wrong.append(f"{what}: {told}")
print("\n".join(wrong) if wrong else f"{len(tried)} made-up edits judged rightly")
sys.exit(1 if wrong else 0)
