#!/usr/bin/env python3
"""Counts banned idioms in the prose of the repository, and fails above their limits: none in pages, help, manual pages, the header
and public doc comments, and few in all other comments.

Usage: tools/style.py [--where RULE]     --where RULE prints each place of one rule. docs/check fails if this one does.

Prose is: Markdown without code blocks, code spans and link targets; the strings of help.rt; manual pages without literal displays;
comments of src, specs, proofs, tests/units.d, the header, C, Python and shell; the mistakes that mutants say; the sentences of
crates.txt; the messages of tools. Names in backquotes are not counted, and neither is anything that the program prints.
"""
import re
import sys
from pathlib import Path

TOP = Path(__file__).resolve().parent.parent

# a name, the idiom, and the words to use in its place
RULES = [
    ("told", r"\b(tell|tells|told|telling)\b", "says, prints, reports, returns"),
    ("stands", r"\b(stand|stands|stood|standing)\b(?! for)", "is, appears; is built; depends on"),
    ("so-many", r"\bso many\b", "that many, n, the number of"),
    ("behind", r"\bbehind\b", "after, above, inner"),
    ("beside", r"\bbeside\b", "next to, in addition to"),
    ("is-no", r"(?<!there )\b(is|are|was|were|be) no\b(?! longer| more)", "is not a"),
    ("is-none", r"(?<!there )\b(is|are|was) none\b", "there is none, is not one"),
    ("the-same", r"(?:^|[.|;] )The same\b", "repeat the subject"),
    ("as-x", r"\bAs `x`,", "Like `x`, but"),
    ("what-first", r"(?:^|[.|] )What (is|are|was|it|they|a|an|the|this|that|each|one|of|some|stands|comes|follows|runs?|holds|C)\b", "name the thing"),
    ("answers", r"\banswer(s|ed|ing)?\b", "returns, replies, prints; result, reply, output"),
    ("room", r"\brooms?\b", "capacity, free space, buffer"),
    ("wrong-body", r"\bwrong bod(y|ies)\b", "mutant"),
    ("planted", r"\bplanted\b", "seeded"),
    ("spells", r"\b(spells?|spelled|spelt)\b", "parses as, is the text of"),
    ("looked-at", r"\b(look|looks|looked) at\b", "reads, checks, examines"),
    ("left-out", r"\b(left|leave|leaves) out\b", "omitted, skipped"),
    ("there", r"\b(is|are|was) not there\b|\bis there\b", "exists, is missing, is installed"),
    ("give-back", r"\b(give|gives|given|gave|giving)\b[^.]{0,25}\bback\b", "frees, releases"),
    ("pass-on", r"\b(pass|passes|passed|passing) on\b", "forwards, flushes"),
    ("held-against", r"\b(held|hold|holds) (\w+ ){0,6}against\b", "checked against"),
    ("tried", r"\btried\b", "tested"),
    ("go-round", r"\b(go|goes|going|went) round\b", "wraps around"),
    ("lap", r"\blaps?\b", "multiple of 2^64"),
    ("turned", r"\bturned\b", "inverted"),
    ("beginning", r"\ba beginning\b|\bbeginning of\b", "a prefix of"),
    ("to-come", r"\bto come\b", "remaining"),
    ("rest", r"\b(a|its|and a|for a|and its) rest\b", "trailing bytes"),
    ("want-of", r"\bwant of\b", "out of memory"),
    ("request-memory", r"\brequests? for memory\b", "allocation"),
    ("memory-refused", r"memory (is|was) refused|of it is refused", "the allocation fails"),
    ("but-for", r"\bbut for\b", "except"),
    ("else", r"(?:,|;) (?:and )?else\b|\. Else\b", "otherwise"),
    ("counted", r", \w+ (ones )?counted\b|\bcounted too\b", "including"),
    ("nobody", r"\bnobody('s)?\b|\bwhoever\b", "name the actor"),
    ("by-chance", r"\bby chance\b", "random"),
    ("from-outside", r"\bfrom outside\b", "independent"),
    ("fixed-room", r"\bfixed room\b", "fixed-size buffer"),
    ("first-look", r"\bfirst look\b", "fast path"),
    ("way-out", r"\bways? out\b", "return path"),
    ("lent", r"\b(lent|lends|lend)\b", "borrowed"),
    ("fault", r"(?<!page )\bfaults?\b", "error"),
    ("folder", r"\bfolders?\b", "directory"),
    ("cpu-time", r"\bof processor\b|\bprocessor time\b|\bon the clock\b", "CPU time, wall-clock time"),
    ("anew", r"\banew\b", "again"),
    ("may-not", r"\bmay not\b", "must not; might not"),
    ("gets-error", r"\bgets? (?:`x`|.?error\b)", "prints, replies, returns"),
    ("is-nothing", r"\b(is|are) nothing\b", "is ignored"),
    ("is-that-of", r"\b(is|are) (that|those) of\b", "repeat the noun; equals, is the result of"),
    ("british", r"\b(colours?|behaviour|spelt|grey|licence|initialis\w+|recognis\w+)\b", "American spelling"),
]
# what a rule may have at most, by the kind of prose: in all other comments a tenth of what there was before the pages were plain
LIMITS = {"pages": 0, "help": 0, "header": 0, "public": 0, "other": 4}
# a line that the program prints, in the help
PRINTED = "lost      0x8 bytes before the request, and 0x9 behind it"


def code_spans(text):
    return re.sub(r"`[^`\n]*`", "`x`", text)


def markdown(text):
    text = re.sub(r"^(```|~~~).*?^\1[^\n]*$", "", text, flags=re.S | re.M)
    text = re.sub(r"^#+ (?:enum|struct|trait) .*$", "", text, flags=re.M)
    text = re.sub(r"^ {4}[^\n]*$", "", re.sub(r"<!--.*?-->", "", text, flags=re.S), flags=re.M)
    return re.sub(r"\]\([^)]*\)", "]", code_spans(text))


def rattle(text, is_public):
    """The comments of a source: those of public items, of modules and above clauses, or all others."""
    text = re.sub(r"(?:^ *//(?!/).*\n)+(?= *(?:requires|ensures)\b)", lambda it: it[0].replace("//", "//!"), text, flags=re.M)
    found, block = [], []
    for line in text.splitlines():
        comment = re.match(r"\s*//([/!]?)(.*)$", line) or re.search(r"\s//(?!/)()\s(.*)$", line)
        if line.lstrip().startswith("///"):
            block.append(comment[2])
            continue
        if block and not re.match(r"\s*(#\[|//(?!/))", line):
            shown = bool(re.match(r"\s*pub (?!\()", line)) or bool(re.match(r"\s*(fn .*;|[A-Z]\w*\W)", line))
            found += block if shown == is_public else []
            block = []
        if comment and (comment[1] == "!") == is_public:
            found.append(comment[2])
        elif not comment:
            found.append("")
    return code_spans("\n".join(found))


def antt(text):
    return code_spans("\n".join(it[2:] if it.startswith("--") else "" for it in map(str.strip, text.splitlines())))


def mistakes(text):
    return code_spans("\n\n".join(re.findall(r"^says: (.*)$", text, flags=re.M)))


def strings(text):
    return "\n".join(it[1] for it in re.finditer(r'"((?:[^"\\]|\\.)*)"', text, flags=re.S)).replace(PRINTED, "")


def manual(text):
    text = re.sub(r"^\.Bd.*?^\.Ed$", "", text, flags=re.S | re.M)
    return "\n".join("`x`" if it.startswith(".Ql") else re.sub(r"^\.\w+\s?", "", it) for it in text.splitlines())


def c(text):
    return "\n".join(it[0] for it in re.finditer(r"/\*.*?\*/|//[^\n]*", text, flags=re.S))


def script(text):
    if "python" in text.split("\n", 1)[0] or text.startswith('"""'):
        found = re.findall(r'"""(.*?)"""', text, flags=re.S)
        return "\n".join(found + re.findall(r"(?:^\s*#(?!!):?|[ \t]{2}#[ \t])(.*)$", text, flags=re.M))
    return "\n".join(re.findall(r"^\s*#(?!!)(.*)$", text, flags=re.M))


def messages(text):
    """The strings of a script that have four words or more."""
    found = (it[2] for it in re.finditer(r"""(["'])((?:(?!\1)[^\\\n]|\\.)*)\1""", text))
    return "\n".join(code_spans(re.sub(r"\{[^{}]*\}", "x", it)) for it in found if len(re.findall(r"\b[a-z]+\b", it)) > 3 and " " in it)


def prose():
    """The prose of each file, by its kind."""

    def all_of(how, *patterns):
        files = (it for pattern in patterns for it in sorted(TOP.glob(pattern)) if it.is_file())
        return {str(it.relative_to(TOP)): how(it.read_text(encoding="utf-8")) for it in files}

    sources = ("crates/*/src/**/*.rt", "tests/units.d/**/*.rattle")
    # not tests/machine_code: proofs that take minutes are kept by the checksums of its files
    directories, endings = ("tests", "tools", "bench", "examples", "hardware", "web"), ("", ".bash", ".py")
    plain = [it for each in directories for it in (TOP / each).iterdir() if it.is_file() and it.suffix in endings and it.name != "style.py"]
    plain += [TOP / it for it in ("install", "package", "cheri-cap", ".ci/run", "docs/check")]
    return {
        "pages": all_of(markdown, "*.md", "docs/*.md", "rust/*.md") | all_of(script, "crates.txt"),
        "help": all_of(strings, "crates/*/src/help.rt") | all_of(manual, "man/*"),
        "header": all_of(c, "include/*.h", "include/*.hpp"),
        "public": all_of(lambda text: rattle(text, True), *sources)
        | all_of(antt, "crates/*/specs/**/*.antt")
        | all_of(mistakes, "mutants/*/*.edit"),
        "other": all_of(lambda text: rattle(text, False), *sources)
        | all_of(antt, "crates/*/proofs/**/*.antt")
        | all_of(c, "examples/*.c", "examples/*.cpp", "bench/*.[ch]", "tests/*.c", "hardware/*.sv", "tests/hardware.d/*.sv")
        | all_of(script, "python/*.py", "gdb/*.py", "lldb/*.py", "conformance/*.py")
        | {str(it.relative_to(TOP)): script(it.read_text(encoding="utf-8")) for it in plain}
        | {f"strings of {it.relative_to(TOP)}": messages(it.read_text(encoding="utf-8")) for it in plain if it.parent.name == "tools"},
    }


def unwrapped(text):
    """The text with each paragraph, comment or table row on one line."""
    lines = "\n".join(map(str.strip, text.splitlines()))
    return re.sub(r"(?<!\n)\n(?!\n|\|)", " ", lines)


def rule_of(pattern):
    return re.compile(pattern, re.M | (0 if re.search("The same|As `|Else|What ", pattern) else re.I))


def faults():
    """What is above a limit, one line each."""
    found = {kind: {file: unwrapped(text) for file, text in files.items()} for kind, files in prose().items()}
    for name, pattern, instead in RULES:
        for kind, files in found.items():
            count = {file: len(rule_of(pattern).findall(text)) for file, text in files.items()}
            if sum(count.values()) > LIMITS[kind]:
                places = ", ".join(file for file, number in count.items() if number)
                yield f"style: {kind}: {sum(count.values())} of {name} (at most {LIMITS[kind]}; write: {instead}): {places}"


def main():
    if "--where" in sys.argv:
        rule = rule_of(next(pattern for name, pattern, _ in RULES if name == sys.argv[-1]))
        for kind, files in prose().items():
            for file, text in files.items():
                for line in unwrapped(text).splitlines():
                    for it in rule.finditer(line):
                        print(f"{kind}: {file}: {line[max(0, it.start() - 60) : it.end() + 60].strip()}")
        return
    found = list(faults())
    print("\n".join(found) or "style: ok")
    sys.exit(bool(found))


if __name__ == "__main__":
    main()
