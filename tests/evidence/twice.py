"""What stands twice in this repository, since one of the places cannot ask the other: whether both say the same.
tests/evidence/once looks. What it is, and why:

- web/asked.js, the header, Python, Rust: values of options, numbers of settings; none reads another's enum
- web/listing.js: keywords, petcat's names, which files are no input; the editor colours each key at once
- web/page.js: the longest listing; a link is inflated before the module sees it
- web/wire.js: names of delays, intervals and ends of a byte; it draws thousands of frames from numbers
- web/sheets.js, pr_render, pr_pdf: lines above the first row, a disc's width; units differ
- web/words.js: parts of hints; the page names its own choice in place of an option
- pr_cli, pr_exports: how many first bytes show a format; both contracts have it
- pr_ear, pr_exports: the numbers of a mark; each is a library by itself
- print1525.mjs: --quiet, and that the input is also the output; the module sees no files"""

import ast
import os
import re

ROOT = os.path.dirname(os.path.dirname(os.path.dirname(os.path.abspath(__file__))))
# The options whose values a setting has, by the names of the header's enums; what a setting has beside them, and what
# of them it has not.
OPTIONS = {
    "as": (("PAGE_AS", "READING_AS", "TRACE_AS", "REPORT_AS"), ("usual",), ()),
    "from": (("LISTING_FROM", "FROM"), ("usual",), ()),
    "present": (("PRESENT",), (), ()),
    "mode": (("STATUS",), (), ()),
    "set": (("SET",), (), ()),
    "paper": (("PAPER",), (), ()),
    "bounds": (("BOUNDS",), (), ()),
    "listening": (("LISTENING",), ("none", "both"), ("4,5",)),
}
# The lists of their values elsewhere: what they are called there.
PAGE = {"PRESENT": "PRESENT", "STATUS": "STATUS", "SETS": "SET"}
ARRAYS = {"formats": "as", "forms": "from", "printers": "present", "papers": "paper", "listening": "listening"}
TYPES = {"status": "mode"}
RUST_NUMBERS = {"four": "4", "five": "5"}
# The functions that read a value, and a number that stands for it; what of the header's enum these are, in their order.
NUMBERED = {
    "form_for": ("read_form", "from", ("text", "prg", "petcat", "magazine", "auto")),
    "format_for": ("read_format", "as", ("list", "text", "svg", "png", "pdf")),
    "source_for": ("read_source", "from", ("text", "vcd", "csv")),
}
# How many lists of an option's values a file has: those that are compared here. All other files have none.
LISTED = {"examples/python/print1525/_texts.py": 6, "web/asked.js": 5, "web/worker.js": 1}
LIST = re.compile(r"""[\[({]\s*((?:(?:'[\w -]+'|"[\w -]+")\s*,\s*)+(?:'[\w -]+'|"[\w -]+"))\s*,?\s*[\])}]""")
# How the page calls what ended a byte.
ENDS = {
    "Acknowledged": "acknowledged",
    "Unacknowledged": "not acknowledged",
    "Attention": "ended by ATN",
    "ClockTimeout": "CLOCK released too long",
    "Cut": "cut",
}
LETTERS = "abcdefghijklmnopqrstuvwxyz"
# Where hints are that the page says in words of its own.
HINTS = [f"crates/pr_explain/src/{it}.rt" for it in ("faults", "scripts", "trace_text", "tables", "names", "preambles", "stops")]
HINTS += ["crates/pr_cli/src/told.rt", "crates/pr_cli/src/notes.rt", "crates/pr_cli/src/strings.rt", "crates/pr_cli/src/order.rt",
          "crates/pr_cli/src/still.rt", "crates/pr_cli/src/programs.rt", "crates/pr_report/src/oddities.rt",
          "crates/pr_options/src/command_line.rt"]
# Options of other programs: of those in examples/, and of web/pack.mjs.
OTHERS = {"--bytes", "--decode", "--receive", "--window", "--clean"}


def text_of(path):
    with open(f"{ROOT}/{path}", encoding="utf-8") as file:
        return file.read()


def function(text, name):
    """A function of Rust or Rattle, to its last line."""
    return re.search(rf"^(?:pub )?fn {name}\b.*?^\}}", text, re.S | re.M).group()


def lists_in(text, name):
    """The strings of a list of JavaScript or C, by the name before `=`."""
    body = re.search(rf"\b{name}(?:\[\d*\])*\s*=\s*[\[{{](.*?)[\]}}]", text, re.S).group(1)
    return re.findall(r"""['"]([^'"]*)['"]""", body)


def differ(what, one, other):
    return [] if one == other else [f"{what}: {one} and {other}"]


def values():
    """The values of each option, by the name of its row's text."""
    text = text_of("crates/pr_options/src/options.rt")
    found = re.findall(r'const (\w+)_VALUES: &str =\s*"([^"]*)";', text)
    return {name: re.split(r", | or ", said) for name, said in found}


def header():
    """The settings of the header: the values of each, by their numbers."""
    found = {}
    for name, body in re.findall(r"^enum print1525_(\w+) \{([^}]*)\};", text_of("include/print1525.h"), re.M):
        rows = re.findall(rf"PRINT1525_{name.upper()}_(\w+) = (\d+)", body)
        found[name] = [it.lower().replace("_", "-") for it, number in rows]
        if [number for _, number in rows] != [str(it) for it in range(len(rows))]:
            found[name] = rows
    return found


def python_names():
    """The values of each setting for Python, by their numbers."""
    found = {}
    for it in ast.parse(text_of("examples/python/print1525/_texts.py")).body:
        if isinstance(it, ast.Assign) and getattr(getattr(it.value, "value", None), "id", "") == "Literal":
            name = it.targets[0].id.lower()
            found[TYPES.get(name, name)] = list(ast.literal_eval(it.value.slice))
    return found


def rust_names():
    """The same for Rust, as the header has them."""
    enums = re.findall(r"^pub enum (\w+) \{(.*?)^\}", text_of("examples/rust/src/texts.rs"), re.S | re.M)
    found = {name.lower(): re.findall(r"^    (\w+) = \d+,", body, re.M) for name, body in enums}
    plain = {name: [re.sub(r"(?<=[a-z])(?=[A-Z])", "-", it).lower() for it in given] for name, given in found.items()}
    return {name: [RUST_NUMBERS.get(it, it) for it in given] for name, given in plain.items()}


def settings():
    """The values of options that settings have: in the header, for Python and Rust, and in the page."""
    said, numbered, wrong = values(), header(), []
    for setting, (options_of, more, less) in OPTIONS.items():
        wanted = {*(it for option in options_of for it in said[option]), *more} - {*less}
        wrong += differ(f"include/print1525.h, {setting}, and pr_options", sorted(numbered[setting]), sorted(wanted))
    python = python_names()
    code, page = text_of("library/texts.c"), text_of("web/asked.js")
    rust = rust_names()
    for setting in OPTIONS:
        wrong += differ(f"examples/python, {setting}, and the header", python[setting], numbered[setting])
        wrong += differ(f"examples/rust, {setting}, and the header", rust[setting], numbered[setting])
    for name, setting in ARRAYS.items():
        words = [{"4,5": "both"}.get(it, it) for it in lists_in(code, name)]
        wrong += differ(f"library/texts.c, {name}, and the header", words, ["", *numbered[setting][1:]])
    for name, option in PAGE.items():
        wrong += differ(f"web/asked.js, {name}, and pr_options", sorted(lists_in(page, name)), sorted(said[option]))
    for name, function_of in (("FORMS", "form_for"), ("SOURCES", "source_for")):
        wrong += differ(f"web/asked.js, {name}, and pr_exports", lists_in(page, name), [*NUMBERED[function_of][2]])
    return wrong + numbers(numbered)


def drawn():
    """The formats that draw characters, and the page's buttons for printers and the status."""
    said = re.search(r"--characters and --top go with --as ([^\"]*)\"", text_of("crates/pr_options/src/command_line.rt")).group(1)
    own = lists_in(text_of("web/worker.js"), "DRAWN")
    wrong = differ("DRAWN of web/worker.js and pr_options", own, re.split(r", | or ", said))
    asked, page = text_of("web/asked.js"), text_of("web/page.html")
    for name, given, words in (("printers", "PRESENT", {"both": "4 and 5"}), ("status", "STATUS", {"each": "cleared"})):
        wanted = {(str(number), words.get(value, value)) for number, value in enumerate(lists_in(asked, given))}
        buttons = set(re.findall(rf'name="{name}" value="(\d)"><span>([^<]*)</span>', page))
        wrong += differ(f"web/page.html, {name}, and web/asked.js", sorted(buttons), sorted(wanted))
    return wrong


def lists(paths):
    """Lists of two values or more of an option that nothing here compares."""
    every, wrong = [set(it) for it in values().values()], []
    for path in paths:
        given = [] if path.startswith("crates/") else LIST.findall(text_of(path))
        items = [re.findall(r"""['"]([^'"]+)['"]""", it) for it in given]
        found = [it for it in items if any(set(it) <= said for said in every)]
        if len(found) != LISTED.get(path, 0):
            wrong.append(f"{path}: {len(found)} lists of an option's values, and not {LISTED.get(path, 0)}: {found}")
    return wrong


def numbers(numbered):
    """The numbers of settings in pr_exports: each is the value that the option reads under its name in the header."""
    reads, counts = (text_of(f"crates/{it}.rt") for it in ("pr_options/src/option_values", "pr_exports/src/settings"))
    wrong = []
    for name, (reader, setting, values_in_order) in NUMBERED.items():
        # (a listing is one of the things that a script is made of)
        meanings = re.findall(r'"(\w+)" => Some\((.*)\),', function(reads, reader))
        by_value = {value: re.sub(r"^Form::Listing\((.*)\)$", r"\1", meant) for value, meant in meanings}
        by_number = re.findall(r"(\d+) => Some\(([A-Z].*)\),", function(counts, name))
        given = [(int(number), meant) for number, meant in by_number]
        wanted = [(number, by_value.get(value)) for number, value in enumerate(values_in_order)]
        wrong += differ(f"pr_exports, {name}, and pr_options", given, wanted)
        wrong += differ(f"values of {name} that the header has not", sorted({*values_in_order} - {*numbered[setting]}), [])
    return wrong


def listings():
    """The keywords and petcat's names for the page's editor, and the longest listing."""
    page = text_of("web/listing.js")
    tokens = re.findall(r'(\d+) => b"(\S+)",', text_of("crates/pr_listing/src/keywords.rt"))
    words = re.search(r"const KEYWORDS = \((.*?)\)\.split", page, re.S).group(1)
    own, wanted = "".join(re.findall(r"'([^']*)'", words)).split(" "), [word.lower() for _, word in tokens]
    wrong = differ("the keywords of web/listing.js and of pr_listing", own, wanted)
    said = re.search(r'pub const NAMES: &str = "\\\n(.*?)";', text_of("crates/pr_listing/src/names.rt"), re.S).group(1)
    names = said.replace("\\\n", "").split("\\n")[:-2]
    shifted = ", ".join(f"'shift-{it}'" for it in LETTERS)
    body = re.search(r"const NAMES = \[(.*?)\];", page, re.S).group(1)
    body = body.replace(f"...Array.from('{LETTERS}', letter => `shift-${{letter}}`)", shifted)
    own, wanted = re.findall(r"'([^']*)'", body), ["" if it.startswith("$") else it for it in names]
    wrong += differ("petcat's names of web/listing.js and of pr_listing", own, wanted)
    limit = re.search(r"SCRIPT_LIMIT: usize = ([\d_]+);", text_of("crates/pr_jobs/src/pages.rt")).group(1)
    own = re.search(r"LISTING_LIMIT = (\d+);", text_of("web/page.js")).group(1)
    return wrong + differ("LISTING_LIMIT of web/page.js and SCRIPT_LIMIT", own, limit.replace("_", ""))


def wave():
    """What the page writes at frames and intervals: the kinds of delay, the intervals, and what ends a byte."""
    page, report = text_of("web/wire.js"), text_of("crates/pr_report/src/interval.rt")
    body = re.search(r"pub enum Kind \{(.*?)^\}", text_of("crates/pr_wire/src/delay.rt"), re.S | re.M).group(1)
    own = re.findall(r"(\w+): \['", re.search(r"const DELAYS = \{(.*?)\};", page, re.S).group(1))
    wrong = differ("DELAYS of web/wire.js and pr_wire", own, [*re.findall(r"^    (\w+),", body, re.M), "rest"])
    rows = re.findall(r'Interval::\w+ => Row::new\(b"([^"]+)"', report)
    wrong += differ("INTERVALS of web/wire.js and pr_report", lists_in(page, "INTERVALS"), rows)
    body = function(text_of("crates/pr_exports/src/rows.rt"), "end_of")
    ends = re.findall(r"(?:FrameEnd|IncompleteEnd)::(\w+)(?:\(time\))?\) => \((\d)", body)
    own, wanted = list(enumerate(lists_in(page, "ENDS"))), sorted({(int(number), ENDS[name]) for name, number in ends})
    return wrong + differ("ENDS of web/wire.js and pr_exports", own, wanted)


def hints():
    """The page's own words for hints: each of them is for words that a crate says."""
    said = re.sub(r"\s*\\\n\s*", " ", "\n".join(text_of(it) for it in HINTS))
    said = said.replace("bad --{0}", "bad --names x")
    table = re.search(r"const WORDS = \[(.*?)^\];", text_of("web/words.js"), re.S | re.M).group(1)
    parts = [it.replace(r"\/", "/") for it in re.findall(r"^  \[/(.*)/, ", table, re.M)]
    return [f"web/words.js: no crate says {it}" for it in parts if not re.search(it, said)]


def options(strings):
    """The names of options in strings of the page, the header and the wrappers: each is an option of the program, or a
    colour or a length of the page."""
    row = re.findall(r'\b(?:valued\(|bare\(\s*Kind::\w+,)\s*"([a-z-]+)",', text_of("crates/pr_options/src/options.rt"))
    known = {*(f"--{it}" for it in [*row, "output", "help", "version"]), *OTHERS}
    known |= set(re.findall(r"--[a-z][a-z-]*", text_of("web/page.css")))
    found = []
    for path, line, _, text in strings:
        names = [] if path.startswith("crates/") else re.findall(r"(?<![\w-])--[a-z][a-z-]*", text)
        found += [f"{path}:{line}: {it} is no option" for it in names if it not in known]
    return found


def quiet():
    """The words by which print1525.mjs knows --quiet, and pr_options."""
    said = re.findall(r"word == \"([^\"]+)\" \|\| begins_with_letter|word\[\d\] == b'(.)'", text_of("crates/pr_options/src/command_line.rt"))
    page = re.search(r"word === '([^']+)' \|\| word\.startsWith\('([^']+)'\)", text_of("web/print1525.mjs"))
    whole = "".join(word for word, _ in said)
    return differ("--quiet of print1525.mjs and of pr_options", page and page.groups(), (whole, "".join(sign for _, sign in said)))


def paper():
    """The lines above the first row in the page, and the width of a dot's disc in SVG and PDF, whose units are half as large."""
    usual = re.search(r"\bLayout \{\s*top: (\d+),", text_of("crates/pr_render/src/format.rt")).group(1)
    own = re.search(r"MARKS_DOWN = (\d+);", text_of("web/sheets.js")).group(1)
    wrong = differ("MARKS_DOWN of web/sheets.js, in 1/1260 inch, and the usual lines of pr_render", int(own), 210 * int(usual))
    wide = re.search(r'<g stroke-width=\\?"(\d+)\\?" stroke-linecap', text_of("crates/pr_render/src/parts.rt")).group(1)
    stroke = re.search(r"d1\\n(\d+) w 1 J", text_of("crates/pr_pdf/src/parts.rt")).group(1)
    return wrong + differ("the stroke of pr_pdf and twice that of pr_render", int(stroke), 2 * int(wide))


def mark():
    """The numbers of a mark."""
    one, other = (re.search(r"pub struct WireMark \{.*?^\}", text_of(f"crates/{it}.rt"), re.S | re.M).group() for it in ("pr_ear/src/printer_numbers", "pr_exports/src/marks"))
    return differ("WireMark of pr_ear and of pr_exports", one, other)


def wrong(strings):
    """What differs, in words; `strings` are those of the code, each its file, line, what is before it and its text."""
    paths = sorted({path for path, *_ in strings})
    return [*settings(), *drawn(), *lists(paths), *listings(), *wave(), *hints(), *quiet(), *paper(), *mark(), *options(strings)]
