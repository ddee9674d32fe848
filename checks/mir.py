"""The code as it is proved and compiled, in nested lists, from what the toolchain writes of a crate.

A library that is proved has it in out/rlib/NAME.rlib/toolchain/mir.json: `of_library` reads that. Of a program, and of code that is not proved,
`rt check --generated` writes each function's code as the prover reads it, in Code/Mir.antt: `of_text` reads those. Both give lists of one form
(`readers_agree` of run.py lays them side by side on an example): a node is a list of its name and its parts, and a list of nodes is `lcons x (lcons y lnil)`.
"""
import json
import re
from pathlib import Path

# an example for the check that both readers give the same; it is proved with no proof file
SAMPLE = """
#[derive(Clone, Copy)]
pub struct View<'a> {
    pub cells: &'a [u64],
    pub at: usize,
}

#[derive(Clone, Copy)]
pub enum Kind {
    None,
    Some(u64),
    Two(u64, u8),
}

impl Kind {
    pub fn number(self) -> u64 {
        match self {
            Kind::None => 0,
            Kind::Some(n) => n,
            Kind::Two(n, _) => n,
        }
    }
}

pub fn part(t: &[u64]) -> &[u64] {
    if 3 < t.len() { &t[1..3] } else { t }
}

pub fn set(t: &mut [u64], n: u64) {
    if 3 < t.len() && t[2] < 7 {
        t[3] = n;
        one(&mut t[1]);
    }
}

fn one(x: &mut u64) {
    *x = 1;
}

pub fn sum(t: &[u64]) -> u64 {
    let mut all: u64 = 0;
    for i in 0..t.len() {
        if t[i] == 9 {
            return 7;
        }
        if t[i] == 8 {
            break;
        }
        all = all / 2 + t[i] / 2;
    }
    all
}

pub fn viewed(t: &[u64]) -> u64 {
    let v = View { cells: t, at: 1 };
    let a: [u64; 4] = [1, 2, 3, 4];
    let kind = Kind::Some(a[2]);
    if v.at < v.cells.len() {
        v.cells[v.at]
    } else {
        kind.number()
    }
}

const SIZES: [u64; 3] = [16, 32, 4096];

pub fn size(i: u64) -> u64 {
    if i < 3 { SIZES[i as usize] } else { 1 }
}

pub fn bits(a: u64, b: u64) -> u64 {
    if !(a < b) { (a | b) & !(a ^ b) } else { 1 << 40 | a / 4096 }
}

pub fn choose(n: u64) -> u32 {
    match n {
        0 => 1,
        1 | 2 => 5,
        _ => (n % 9) as u32,
    }
}

pub fn pick<T: Copy>(a: T, b: T, first: bool) -> T {
    if first { a } else { b }
}

pub fn picked(t: &mut [u64]) -> u64 {
    set(t, 4);
    pick(1, sum(t), true)
}

#[derive(Clone, Copy, PartialEq, Eq, Default)]
pub struct Sums {
    pub live: u64,
    pub held: u64,
}

#[derive(Clone, Copy)]
pub enum Why {
    Large(u64),
    Small,
}

pub trait Lends: Drop {
    fn cell(&self, at: usize) -> u64;
}

impl<'a> Lends for &'a [u64] {
    fn cell(&self, at: usize) -> u64 {
        if at < self.len() { self[at] } else { 0 }
    }
}

impl<'a> Lends for &'a mut [u64] {
    fn cell(&self, at: usize) -> u64 {
        if at < self.len() { self[at] } else { 0 }
    }
}

#[derive(Drop)]
pub struct Table<C: Lends> {
    cells: C,
    spent: u64,
}

impl<C: Lends> Table<C> {
    pub fn new(cells: C) -> Table<C> {
        Table { cells, spent: 0 }
    }

    pub fn get(&mut self, at: usize) -> u64 {
        self.spent = self.spent.wrapping_add(1);
        self.cells.cell(at)
    }
}

impl<'a> Table<&'a mut [u64]> {
    pub fn put(&mut self, at: usize, v: u64) {
        if at < self.cells.len() {
            self.cells[at] = v;
        }
    }
}

fn pair(t: &[u64]) -> ([u64; 2], u64) {
    let mut table = Table::new(t);
    let x = table.get(1);
    ([x, 2], table.spent)
}

pub fn opened(t: &mut [u64], m: u64) -> Result<u64, Why> {
    let k = found(t, m).ok_or(Why::Small)?;
    let mut table = Table::new(t);
    table.put(0, k);
    Ok(table.get(1))
}

fn found(t: &[u64], m: u64) -> Option<u64> {
    let ([first, ..], second) = pair(t);
    if first < m { Some(second) } else { None }
}

pub fn low(bits: u64) -> Option<u64> {
    (0..64).find(|i| bits >> i == 1)
}

pub fn walked(t: &[u64]) -> u64 {
    let mut all = Sums::default();
    for x in t {
        all.live = all.live.wrapping_add(*x);
    }
    for h in 0..=7 {
        all.held ^= h;
    }
    if all == Sums::default() { 1 } else { all.live.min(all.held) }
}

pub fn cleared(t: &mut [u64]) {
    for x in t.iter_mut() {
        *x = 0;
    }
}

pub fn told(why: Why) -> u64 {
    let Why::Large(n) = why else {
        return 0;
    };
    n
}

pub struct Buffer<const N: usize> {
    bytes: [u8; N],
    count: usize,
}

impl<const N: usize> Buffer<N> {
    pub fn held(&self) -> usize {
        if self.count < N { self.count } else { N }
    }
}

fn apply<F: FnOnce(u64) -> u64>(n: u64, f: F) -> u64
    requires { F.IsAlwaysCallable f }
{
    f(n)
}

pub fn applied(n: u64) -> u64 {
    apply(n, |k| k ^ n)
}

fn half(n: u64) -> u64 {
    n / 2
}

pub fn halved(n: u64) -> Option<u64> {
    Some(n).map(half)
}
"""
# how many functions are read of it: those that it writes, and those that the toolchain makes of closures and derived traits
SAMPLE_COUNT = 38

# ---- both readers


def chain(ones):
    """A list of nodes."""
    done = "lnil"
    for one in reversed(ones):
        done = ["lcons", one, done]
    return done


def quoted(name):
    """A name as it stands in a node."""
    return f'"{name}"'


# the libraries of the toolchain
TOOLCHAIN = {"core", "std", "io", "os", "libc", "std_alloc", "std_collections", "std_heap", "std_io"}


def is_outside(name):
    """Whether a function or an impl is of the toolchain's libraries."""
    return name.strip('"').split("::")[0] in TOOLCHAIN


def direct(name, types="lnil", impls=()):
    """A function that a call names, the types that it is called at, and the program's own impls that it is called with, by which it may call them.

    One of the toolchain's libraries goes by its last two words: the text has it by the module that brings it in.
    """
    name = quoted("::".join(["std", *name.strip('"').split("::")[-2:]])) if is_outside(name) else name
    return ["direct", ["symbol", name], types, chain(sorted({one for one in impls if not is_outside(one)}))]


def fn_def(name, parameters, locals_, code, types):
    """A function: its name, and its body, where the number of parameters, the locals, the code and the declared types have the places 3 to 6."""
    return name, ["fn", name, "-", str(parameters), chain(locals_), code, chain(types)]


# ---- a library's mir.json: a node is {"Name": its part, or the list of its parts}, or "Name"; code is one list, each statement before its parts

# the words that the text has otherwise
WORDS = {"Opd": "rvOpd", "True": "opdTrue", "False": "opdFalse", "Ptr": "tyPtr", "Bool": "tyBool", "Bound": "boundLv"}
TYPES = {"Ref", "Array", "Param", "Struct", "Named", "Enum", "Vector"}
# how many statements stand in a statement
PARTS = {"Seq": 2, "If": 2, "Block": 1, "Loop": 1}


def word(name):
    """A node's name, as the text has it."""
    return WORDS.get(name) or ("ty" + name if name in TYPES else name[0].lower() + name[1:])


def is_node(value):
    """Whether a value of the file is a node with parts."""
    return isinstance(value, dict) and len(value) == 1 and next(iter(value))[0].isupper()


def impls_of(dicts):
    """The impls that a call of a file is made with."""
    made = [one["Impl"] for one in dicts if "Impl" in one]
    return [quoted(name) for name, _, _ in made] + [name for _, _, inner in made for name in impls_of(inner)]


def of_value(value):
    """A node of a file, but for code."""
    if isinstance(value, bool):
        return str(value).lower()
    if isinstance(value, int):
        return str(value)
    if isinstance(value, str):
        return word(value) if value and value[0].isupper() and value.isalpha() else quoted(value)
    if isinstance(value, list):
        return chain([of_value(one) for one in value])
    if not is_node(value):
        if set(value) == {"local", "steps"}:
            return ["place", str(value["local"]), chain([of_value(one) for one in value["steps"]])]
        if set(value) == {"name", "lifetimes"}:
            return ["pair", quoted(value["name"]), chain([of_value(one) for one in value["lifetimes"]])]
        return ["record", *([key, of_value(one)] for key, one in sorted(value.items()))]
    (name, part), = value.items()
    if name in ("Int", "Float"):
        return [name.lower(), *(str(one) for one in part.values())] if isinstance(part, dict) else ["ty" + name, str(part)]
    if name == "Fn":
        return direct(quoted(part[0]), of_value(part[1]["types"]), impls_of(part[1]["dicts"]))
    if name == "Method":
        return ["method", of_value(part[0]), str(part[1]), of_value(part[2]["types"])]
    if name == "Struct":
        return ["tyStruct", quoted(part[0]), of_value(part[1])]
    if name == "Lit":
        return str(part)
    if name == "Named" and isinstance(part, list):
        return ["tyNamed", of_value(part[0]), *([of_value(part[1])] if part[1] else [])]
    if name in ("Aggregate", "Fields", "Variants"):
        return [word(name), of_value(part)]
    parts = [of_value(one) for one in (part if isinstance(part, list) else [part])]
    # a lifetime that is named has its number alone
    return ["named", *parts] if name == "Named" else [word(name), *parts]


def of_code(code):
    """The code of a function of a file."""
    ahead = iter(code)

    def one():
        node = next(ahead)
        name, part = next(iter(node.items())) if isinstance(node, dict) else (node, [])
        if name == "Switch":
            arms = [["arm", chain([str(key) for key in keys]), one()] for keys in part[1]]
            rest = ["default", one()] if part[2] else "noDefault"
            for arm in reversed(arms):
                rest = [*arm, rest]
            return ["switch", of_value(part[0]), rest]
        if name in PARTS:
            return [word(name), *([of_value(part)] if name == "If" else []), *(one() for _ in range(PARTS[name]))]
        return of_value(node)

    done = one()
    if next(ahead, None) is not None:
        raise ValueError("mir.json has code after the end of a function's")
    return done


def of_library(file):
    """The functions of a library: (name, body)."""
    for name, it in json.loads(Path(file).read_text()):
        types = [["type", quoted(one["name"]), of_value(one["shape"])] for one in it["types"]]
        locals_ = [["local", of_value(one["ty"]), of_value(one["home"])] for one in it["locals"]]
        # what a trait asks of its impls has a name of its own here, and no code
        yield fn_def(name.removesuffix("+decl"), it["params"], locals_, of_code(it["body"]), types)


# ---- the text of --generated: definitions of antt, `NAME = TERM`, with calls by juxtaposition

TOKEN = re.compile(r"List\.\[\]|[(){},;]|[^\s(){},;]+")
DEFINITION = re.compile(r"^(\S+) =(.*?)(?=^(?:abbrev|unfoldable|pub|use|module|--)|\Z)", re.M | re.S)
# where the text has another word than the lists
TERMS = {"cond": "if", "List.[]": "lnil", "tnil": "lnil", "ttnil": "lnil", "List.◌∷◌": "lcons", "tcons": "lcons", "ttcons": "lcons",
         "ty_unit": "unit", "opd_unit": "unit", "int_big": "int", "bit_and": "and", "bit_or": "or", "bit_xor": "xor", "bit_not": "not", **{f"w{width}": str(width) for width in (8, 16, 32, 64, 128)}}


def terms_of(text):
    """The terms of a text, one after another: a call, a tuple as ["tuple", ..] or a record as ["record", [NAME, TERM], ..]."""
    tokens = TOKEN.findall(text)
    at = 0

    def call(ends):
        nonlocal at
        parts = []
        while tokens[at] not in ends:
            parts.append(atom())
        return parts[0] if len(parts) == 1 else parts

    def atom():
        nonlocal at
        token = tokens[at]
        at += 1
        if token == "record" and tokens[at] == "{":
            at += 1
            fields = []
            while tokens[at] != "}":
                name = tokens[at]
                at += 2
                fields.append([name, call(";")])
                at += 1
            at += 1
            return ["record", *fields]
        if token != "(":
            return token
        parts = []
        is_tuple = False
        while tokens[at] != ")":
            parts.append(call((",", ")")))
            if tokens[at] == ",":
                is_tuple = True
                at += 1
        at += 1
        return ["tuple", *parts] if is_tuple else parts[0]

    tokens.append("the end")
    return call(("the end",))


def camel(name):
    """The name of a node, as the lists have it."""
    return re.sub(r"_(\w)", lambda one: one.group(1).upper(), name)


class Text:
    """A module that has a function's code."""

    def __init__(self, text):
        self.defined = {name: body for name, body in DEFINITION.findall(text)}
        uses = re.findall(r"^use (\S+?)(?: as (\S+))?$", text, re.M)
        self.modules = {alias or module.split(".")[-1]: module for module, alias in uses}
        self.prefix = "by_name" if "by_name" in self.defined else "function"

    def term(self, name):
        return self.nodes(terms_of(self.defined[name]))

    def called(self, word):
        """The function whose name or symbol this is, by the module that the word comes from."""
        if isinstance(word, str):
            module = self.modules.get(word.rsplit(".", 1)[0], "").split(".")
            if module[0] == "Rattle" and module[-1] in ("Symbol", "Key") and word.rsplit(".", 1)[1] in ("name", "symbol"):
                return quoted("::".join([module[1], *(one for one in module[3:-1] if one != "contracts")]))
        return None

    def nodes(self, term):
        """A term as nested lists, with what it names put in."""
        if isinstance(term, str):
            if self.called(term):
                return direct(self.called(term))
            if term.startswith('"'):
                return term
            if term in self.defined:
                return self.term(term)
            name = term.split(".", 1)[1] if term.startswith(("Syntax.", "Table.")) else term
            return TERMS.get(name) or camel(name)
        if term[0] == "record":
            return ["record", *([name, self.nodes(one)] for name, one in term[1:])]
        if term[0] == "tuple":
            return ["pair", *(self.nodes(one) for one in term[1:])]
        # a call of a call's result does not come up: what is called is a name
        if term[0] == "Syntax.fn":
            return direct(self.called(term[1]) or self.nodes(term[1]), self.nodes(term[2])[1], impls_in(self.nodes(term[2])[2]))
        name, *parts = [self.nodes(one) for one in term]
        if name[:1] == ["direct"]:
            return direct(name[1][1], parts[0][1], impls_in(parts[0][2]))
        if name == "cInts":
            return ["ints", ["record", ["values", parts[1]], ["width", parts[0]]]]
        if name == "method":
            parts[2] = parts[2][1]
        if name == "tyStruct":
            parts[0] = spelled(parts[0])
        if name == "tyArrayP":
            return ["tyArray", parts[0], ["tyParam", parts[1]]]
        if name == "tyNamed":
            parts[0] = ["pair", spelled(parts[0][1]), parts[0][2]]
            parts = parts if parts[1] != "lnil" else parts[:1]
        return [name, *parts]


def impls_in(dicts):
    """The impls that a call of the text is made with: there each is the list of its functions."""
    return [quoted(items(node[1])[0].strip('"').rsplit("::", 1)[0]) for node in walk(dicts) if node[0] == "impl" and items(node[1])]


def spelled(letters):
    """A name that is written as a list of bytes."""
    return quoted(bytes(int(one) for one in items(letters)).decode())


def path_of(crate, parts):
    """A function's name, by the parts of a module's path."""
    return "::".join([crate, *parts])


def code_files(root, inside):
    """The modules of a crate that have a function's code: (name, file). Functions that call one another, or themselves, have theirs in one folder, +NAME."""
    crate = inside.name.removeprefix("Rattle-").removesuffix("-proofs")
    for file in sorted(inside.rglob("Code.antt")):
        parts = file.relative_to(inside).parts[:-1]
        if (file.parent / "Code/Mir.antt").is_file():
            yield path_of(crate, parts), file.parent / "Code/Mir.antt"
        elif parts and parts[-1].startswith("+"):
            text = Text(file.read_text())
            for symbol, function in re.findall(r"\((\S+\.symbol), (\S+-function)\)", text.defined["code"]):
                alias = re.search(r"(\+\S+)\.(?:by_name|function)\b", text.defined[function]).group(1)
                yield text.called(symbol).strip('"'), file.parent / "Code" / f"{text.modules[alias].split('.')[-1]}.antt"


def of_text(root):
    """The functions of a crate: (name, body), from the folder that --generated wrote."""
    root = Path(root)
    for inside in sorted(root.glob("Rattle-*-proofs")):
        found = dict(code_files(root, inside))
        contracts = root / inside.name.replace("-proofs", "-specs") / "contracts"
        crate = inside.name.removeprefix("Rattle-").removesuffix("-proofs")
        named_there = {path_of(crate, file.relative_to(contracts).parts[:-1]) for file in contracts.rglob("Key.antt")}
        if named_there != set(found):
            raise ValueError(f"of these functions no code is found, or no contract: {sorted(named_there ^ set(found))}")
        for name, file in found.items():
            text = Text(file.read_text())
            function = dict(text.term(text.prefix)[1:])
            table = items(text.term("table")) if "table" in text.defined else []
            types = [["type", spelled(one[1]), one[3]] for one in table]
            yield fn_def(name, function["params"], items(function["locals"]), function["body"], types)


# ---- what stands in the lists


def walk(node):
    """Every list below a node, and the node itself."""
    ahead = [node]
    while ahead:
        one = ahead.pop()
        if isinstance(one, list):
            yield one
            ahead.extend(reversed(one))


def items(node):
    """The elements of a list of nodes."""
    found = []
    while isinstance(node, list) and len(node) == 3 and node[0] == "lcons":
        found.append(node[1])
        node = node[2]
    return found


def kinds(body):
    """The types of a function's locals: local 0 is what it returns, then come its parameters, then the rest."""
    return [local[1] for local in items(body[4])]


def parameters(body):
    """The numbers of a function's parameters."""
    return [str(number) for number in range(1, int(body[3]) + 1)]


def named(node):
    """Every place below a node, as it is printed."""
    return [one for one in walk(node) if len(one) == 3 and one[0] == "place"]


def place_of(operand):
    """The place that an operand copies or moves, if it does."""
    if isinstance(operand, list) and len(operand) == 2 and isinstance(operand[1], list) and operand[1][:1] == ["place"]:
        return operand[1]
    return None


def local_of(operand):
    """The local that an operand copies or moves as a whole, if it does."""
    place = place_of(operand)
    return place[1] if place and not items(place[2]) else None


def assigns(body):
    """The assignments of a function: (target, value)."""
    return [(node[1], node[2]) for node in walk(body) if len(node) == 3 and node[0] == "assign"]


def addressed(body):
    """The locals whose address, or the address of a part of them, is taken."""
    return {value[1][1] for _, value in assigns(body) if value[0] == "addrOf"}


def calls(body):
    """The calls of a function: (name of the callee, arguments, target); the name is None where it is not written in the call."""
    for node in walk(body):
        if node[:1] == ["call"] and len(node) == 4:
            yield callee(node), items(node[2]), node[3]
        elif node[:1] in (["callV"], ["foreign"]):
            # through a pointer, or to code that is not Rattle
            yield None, [one for part in node[1:] for one in (items(part) or [part])], next((one for one in reversed(node) if one[:1] == ["place"]), ["place", "none", "lnil"])


def handed(body, bodies):
    """The functions of the program that come with an impl that a call is made with: whoever is called so may call them."""
    impls = {one.strip('"') for node in walk(body) if node[0] == "direct" for one in items(node[3])}
    return {name for name in bodies if name.rsplit("::", 1)[0] in impls}


def callee(call):
    """The name of the function that is called, if the call says it."""
    return call[1][1][1].strip('"') if call[1][0] == "direct" else None


def ways(code, done=()):
    """All ways through code that has no loop: the statements of each in turn, to its `return`. Nothing where there is a loop, or code that is not understood."""
    if code == "return":
        return [[*done, code]]
    if code == "skip":
        return [list(done)]
    if code[0] in ("assign", "call"):
        return [[*done, code]]
    if code[0] == "seq":
        first = ways(code[1], done)
        each = [[way] if way[-1:] == ["return"] else ways(code[2], way) for way in first or []]
        return None if first is None or None in each else [way for one in each for way in one]
    branches = [code[2], code[3]] if code[0] == "if" else arms(code) if code[0] == "switch" else None
    found = [ways(branch, done) for branch in branches or []]
    return None if branches is None or None in found else [way for one in found for way in one]


def arms(switch):
    """The pieces of code that a switch chooses among."""
    found, rest = [], switch[2]
    while rest[0] == "arm":
        found.append(rest[2])
        rest = rest[3]
    return found + ([rest[1]] if rest[0] == "default" else [])


def target(statement):
    """The place that an assignment or a call sets."""
    return statement[1] if statement[0] == "assign" else statement[3] if statement[0] == "call" else None


def set_by(body, local):
    """The one assignment or call that sets a local as a whole; nothing where there is another, or its own address is taken, or that of a part of it."""
    found = [node for node in walk(body[5]) if node[0] in ("assign", "call") and len(node) in (3, 4) and target(node)[1] == local]
    lent = [value for _, value in assigns(body) if value[0] == "addrOf" and value[1][1] == local and not any(step[0] == "deref" for step in items(value[1][2]))]
    return found[0] if len(found) == 1 and target(found[0])[2] == "lnil" and not lent and local not in parameters(body) else None


def put_in(kind, given):
    """A type with these types in the place of its parameters."""
    if not isinstance(kind, list):
        return kind
    return given[int(kind[1])] if kind[0] == "tyParam" and int(kind[1]) < len(given) else [put_in(one, given) for one in kind]


def given_types(kind):
    """The types that a named type is made with."""
    return items(kind[2]) if len(kind) > 2 else []


def kinds_along(body, place):
    """The types of a place's local and of what each of its steps comes to; `unknown` where that is not known."""
    shapes = {one[1]: one[2] for one in items(body[6])}
    found = [kinds(body)[int(place[1])]]
    for step in items(place[2]):
        kind = found[-1]
        fields = []
        if kind[0] == "tyNamed" and kind[1][1] in shapes:
            shape = shapes[kind[1][1]]
            parts = [put_in(one, given_types(kind)) for one in items(shape[1])]
            if shape[0] == "variants" and step[0] == "variant":
                found.append(["tyStruct", "a variant", chain([["tyInt", "8"], *items(parts[int(step[1])])])])
                continue
            fields = parts if shape[0] == "fields" else []
        elif kind[0] == "tyStruct":
            fields = items(kind[2])
        if step[0] == "deref":
            found.append(step[1])
        elif step[0] == "field" and int(step[1]) < len(fields):
            found.append(fields[int(step[1])])
        else:
            found.append(["unknown"])
    return found


def kind_of(body, operand):
    """The type of what an operand copies or moves."""
    place = place_of(operand)
    return kinds_along(body, place)[-1] if place else ["unknown"]


def strayed(body, bodies, is_one):
    """The functions that are lent one of these types, and are not of the program or take something else there, such as any type."""
    for called, arguments, _ in calls(body):
        for number, one in enumerate(arguments, 1):
            if is_one(kind_of(body, one)) and not (called in bodies and is_one(kinds(bodies[called])[number])):
                yield called or "a function that the call does not name"
