#!/usr/bin/env python3
"""Draws the calls of wasm_embedding from the sources: the second half of docs/EMBEDDING.md.

At the top of the repository:

    python3 tools/names.py            ends with 1 where the page is not what the sources say, or a name is missing
    python3 tools/names.py --write    writes that half of the page anew

It goes over each name that crates/wasm_embedding/src/lib.rt passes on, with its calls, fields and variants, their
signatures and their sentences. A name that stands in no group below is told as missing. Another script may call
`faults()`, which is empty where nothing is wrong.
"""

import glob
import os
import re
import sys

TOP = os.path.join(os.path.dirname(os.path.abspath(__file__)), "..")
PAGE = "docs/EMBEDDING.md"
LIBRARY = "crates/wasm_embedding/src/lib.rt"
BEGIN = "<!-- From here on the page is written by tools/names.py. -->\n"

# The headings of that half of the page, and the names below each.
GROUPS = [
    ("Faults", """
        Fault Refusal Trap LinkFault PluginFault BinaryFault ModuleFault Rule Part Place TypeFault StoreIdsSpent
        HostFailed OutOfMemory Resource"""),
    ("Modules", "module_from_bytes module_from_json read_module Module ModuleExport"),
    ("Engines and stores", """
        plain_store plain_engine ENGINE EngineId Engine StoreIds StoreId Store StoreContext StoreContextMut
        Node"""),
    ("Instances", "InstanceCalls InstanceTyped InstancePre Exports Export Instance"),
    ("Linking", "Linker ExternList"),
    ("Plugins", "Plugins Shown reach_of NodeSet"),
    ("Calls of functions", """
        TypedFunc FuncTyped FuncRun FuncCalls Func WasmParams WasmResults WasmTy NoFunc TypeCheckPosition"""),
    ("Memories, tables, globals and tags", "MemoryCalls Memory TableCalls Table GlobalCalls Global TagCalls Tag"),
    ("The host's functions", """
        Wrap WasmTyList WasmRet NoHost HarmlessBody Harmless HostBody Caller Event Answer Op Name Operand
        Reply ValList OperandList NameList ByteList TextName"""),
    ("The host's data and limits", """
        Limited Pooled Granting Grants StoreLimits ResourceLimiter HostData LimiterFailed ListedData Answers
        GrowthAnswer HookAnswer BehaviourAnswer"""),
    ("Epochs and hooks", """
        EpochSource CountEpochs ListEpochs ListedEpochs EpochAnswer EpochFailed DeadlineBehaviour
        UpdateDeadline BehaviourFailed NoBehaviour ListedBehaviour CallHooks CallHook HookFailed NoHook
        ListedHook"""),
    ("Values", "Val ValCalls Ref RefCalls ExternRef AnyRef V128 Extern ExternCalls"),
    ("Types", """
        FuncType ValType RefType HeapType HeapTopType GlobalType MemoryType TableType TagType ExternType
        Mutability Finality"""),
    ("Modules as data", """
        ModuleDecl ImportDecl FuncDecl Block Instr TargetList BinOp UnOp LoadOp StoreOp TableDecl GlobalDecl
        ConstExpr ExportDecl EntityIndex ElemDecl ElemMode DataDecl DataMode Items Text"""),
    ("Laws", """
        law_c law_g law_k law_s law_links_are_there law_deeds_keep_what_they_do_not_reach law_visits_keep_guests
        law_commands_at_any_depth law_segments_stay_as_many law_calls_see_alike
        law_shown_calls_keep_to_names law_no_host_shows_alone law_wraps_show_alone"""),
]

# Of these the parts stand in one line, without sentences.
IN_ONE_LINE = """
    Val Ref Extern ValType RefType HeapType HeapTopType ExternType BinOp UnOp LoadOp StoreOp Instr Part Event
    Node TypeCheckPosition ValList OperandList NameList ByteList TextName ModuleDecl FuncDecl Items Text
    FuncType
""".split()

# Sentences that are for those who read contracts.
SKIPPED = re.compile(r"(Contracts see .*|Its r\w+ (are|is) this project's own.*|WebAssembly core specification, .*)")


def read(path):
    with open(os.path.join(TOP, path), encoding="utf-8") as file:
        return file.read()


def passed_on():
    """The names that the library passes on, in its order, each with the crate that has it."""
    names = [line.split("::")[-1] for line in re.findall(r"^pub use ([\w:]+);", read(LIBRARY), re.M)]
    return {name: home("wasm_embedding", name) for name in names}


def home(crate, name):
    """The crate that has an item, which a crate passes on."""
    library = read("crates/%s/src/lib.rt" % crate)
    for path, listed in re.findall(r"^pub use ([\w:]+?)(?:::\{([^}]*)\})?;", library, re.M):
        below = path.split("::")[0]
        is_crate = os.path.exists(os.path.join(TOP, "crates", below))
        if is_crate and name in re.findall(r"\w+", listed or path.split("::")[-1]):
            return home(below, name)
    return crate


def without_contracts(lines):
    """The lines without ghost items and clauses, which nobody names in a program."""
    depth, skips, kept = 0, False, []
    for line in lines:
        words = line.strip()
        if not skips and re.match(r"(ghost|requires|ensures)\b", words):
            skips, depth = True, 0
        if not skips:
            kept.append(line)
            continue
        depth += line.count("{") - line.count("}")
        if depth <= 0 and "}" in line:
            skips = False
            if words.endswith("};") and re.search(r"[)>\w]$", "".join(kept[-1:])):
                kept[-1] += ";"
    return kept


def joined(lines, number, ends):
    """The text from a line to the first that ends so, or in front of one that is only a brace, and the next number."""
    text = lines[number].strip()
    number += 1
    while number < len(lines) and not re.search(ends, text) and lines[number].strip() not in ("{", "{}", ""):
        text += " " + re.sub(r"//.*", "", lines[number].strip())
        number += 1
    return text, number


def short(signature):
    """A signature without the bounds of its type parameters and the kinds of its store."""
    text = re.sub(r"\s+", " ", signature)
    name = re.match(r"((?:pub )?fn \w+)<", text)
    if name:
        at, depth = len(name.group(1)), 0
        for at in range(at, len(text)):
            depth += {"<": 1, ">": -1}.get(text[at], 0) if text[at - 1] != "-" else 0
            if depth == 0:
                break
        words = re.findall(r"(?:^<|, ?)\s*(\w+)(?=[:,>])", text[len(name.group(1)):at + 1])
        named = [word for word in words if word not in "TKBHE"]
        text = name.group(1) + ("<%s>" % ", ".join(named) if named else "") + text[at + 1:]
    text = re.sub(r"(?<=Store)<T, K, B>|<'a>|<'_(?:, T)?(?:, K, B)?>|'a ", "", text).replace("pub ", "")
    text = re.sub(r"<T: HostData[^(]*> ?(?=\{|:|$)|(?<=trait FuncTyped)<.*>|(?<=trait InstanceTyped)<.*>", "", text)
    text = re.sub(r",? ?\)", ")", text).replace("( ", "(").replace(", }", " }")
    return text.strip().rstrip("{;,").strip()


class Item:
    """A public type, trait, function or constant: the sentences of the source, its calls, fields and variants."""

    def __init__(self, kind, name, doc, signature, parts):
        self.kind, self.name, self.doc, self.signature, self.parts = kind, name, doc, signature, parts


class File:
    """Reads a source file, and adds its public items and the parts of those that are there already."""

    def __init__(self, path, items):
        self.items = items
        self.lines, self.number = without_contracts(read(path).split("\n")), 0
        self.within, self.doc = None, []

    def sentences(self):
        """The sentences in front, but those of contracts."""
        kept = [sentence for sentence in re.split(r"(?<=[.:])\s+", " ".join(self.doc)) if not SKIPPED.match(sentence)]
        return " ".join(kept).strip().replace("[`law_c`]", "`law_c`")

    def top(self, kind, name):
        """An item of the file."""
        text, self.number = joined(self.lines, self.number, r"[{;]$" if kind != "fn" else r"[{;]$|\{\}$")
        parts = self.items[name].parts if name in self.items else []
        self.items[name] = Item(kind, name, self.sentences(), short(text), parts)
        self.within = self.items[name] if text.endswith("{") and kind != "fn" else None

    def part(self, line):
        """A call, a field or a variant of the item."""
        call = re.match(r"    (pub )?fn (\w+)", line)
        field = re.match(r"    pub (\w+): .*,$", line)
        variant = re.match(r"    ([A-Z]\w*)\b", line)
        if call and (call.group(1) or self.within.kind == "trait"):
            text, self.number = joined(self.lines, self.number, r"[{;]$|\{ .*\}$|\{\}$")
            self.within.parts.append((call.group(2), self.sentences(), short(text.split(" {")[0])))
            return
        if field and self.within.kind == "struct":
            self.within.parts.append((field.group(1), self.sentences(), short(line.strip())))
        if variant and self.within.kind == "enum":
            text, self.number = joined(self.lines, self.number, r",$" if "{" not in line else r"\},?$")
            text = re.sub(r"/// [^,]*?(?=\w+:)", "", text)
            self.within.parts.append((variant.group(1), self.sentences(), short(text)))
            return
        self.number += 1

    def take(self):
        """Takes what begins at the present line."""
        line = self.lines[self.number]
        words = line.strip()
        if words.startswith("///"):
            self.doc.append(words[3:].strip())
            self.number += 1
            return
        if words.startswith("#[") or words.startswith("//"):
            self.number += 1
            return
        top = re.match(r"pub (struct|enum|trait|fn|const|type) (\w+)", line)
        block = re.match(r"impl(?:<.*?>)? (\w+)(?:<[^{]*>)? \{$", line)
        if top:
            self.top(top.group(1), top.group(2))
        elif self.within is not None and re.match(r"    \S", line):
            self.part(line)
        else:
            if block:
                self.within = self.items.setdefault(block.group(1), Item("impl", block.group(1), "", "", []))
            elif re.match(r"impl|\}|mod |pub mod ", line):
                self.within = None
            self.number += 1
        self.doc = []


def items_of(crate):
    """The public items of a crate, by their names."""
    items = {}
    for path in sorted(glob.glob(os.path.join(TOP, "crates", crate, "src/**/*.rt"), recursive=True)):
        file = File(path, items)
        while file.number < len(file.lines):
            file.take()
    return items


def sources(names):
    """The public items that are passed on, by their names."""
    crates = {crate: items_of(crate) for crate in set(names.values())}
    return {name: crates[crate][name] for name, crate in names.items() if name in crates[crate]}


def drawn_item(item):
    """An item as the page has it: its signature, its sentences, and a line for each part."""
    lines = ["- **`%s`**%s" % (item.signature, ": " + item.doc if item.doc else "")]
    if item.name in IN_ONE_LINE or not any(part[1] for part in item.parts):
        shown = ", ".join("`%s`" % part[2] for part in item.parts)
        return ["%s%s%s" % (lines[0], " " if lines[0].endswith(".") else ": ", shown)] if shown else lines
    return lines + ["  - `%s`%s" % (part[2], ": " + part[1] if part[1] else "") for part in item.parts]


def drawn(items):
    """The second half of the page."""
    text = ""
    for heading, names in GROUPS:
        lines = [line for name in names.split() if name in items for line in drawn_item(items[name])]
        text += "\n### %s\n\n%s\n" % (heading, "\n".join(lines))
    return text


def faults():
    """What is wrong with the page: a name that has no group or no source, and a text that is not what is drawn."""
    names = passed_on()
    items = sources(names)
    grouped = [name for _, group in GROUPS for name in group.split()]
    found = ["no group of tools/names.py has %s" % name for name in names if name not in grouped]
    found += ["%s is in a group, and not passed on" % name for name in grouped if name not in names]
    found += ["no source has %s" % name for name in names if name not in items]
    if read(PAGE).split(BEGIN)[-1] != drawn(items):
        found.append("%s is not what the sources say: python3 tools/names.py --write" % PAGE)
    return found


def main():
    if "--write" in sys.argv[1:]:
        text = read(PAGE).split(BEGIN)[0] + BEGIN + drawn(sources(passed_on()))
        with open(os.path.join(TOP, PAGE), "w", encoding="utf-8") as file:
            file.write(text)
    found = faults()
    for fault in found:
        print(fault)
    print("%d names, %d faults" % (len(passed_on()), len(found)))
    return 1 if found else 0


if __name__ == "__main__":
    sys.exit(main())
