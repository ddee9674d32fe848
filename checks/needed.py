"""A request makes its book over exactly the cells that its m needs: so what lies beyond them is handed to no working code.

`Book::new` and `Book::over` each ask in their contract for exactly the cells that the arena needs, and whoever calls them has to prove what they ask. Each request lends one of them the
first cells of its table, as many as the arena says, and has the arena from an admission of its own m and its table's length, whose contract says that the
arena is that of m. Nobody else is lent its table or a part of it, but `split_at_mut`, by which the first cells may be parted from the rest. Works on the code
as it is proved and compiled (`mir.py`), and on the contracts in the source.
"""
import re

from accesses import SPLIT, is_table
from mir import assigns, callee, calls, items, kind_of, kinds, local_of, parameters, place_of, set_by, target, walk

# what `Book::new` and `Book::over` ask of the cells, and what an admission promises: the clause, and where its words come from
ASKED = (r"length (?:\(C\.list cells\)|cells\.old) ≡ need arena\.m", {"length": "Rattle.std.specs.Prelude.length", "need": "Rattle.table.specs.Table.need"})
ADMITTED = (r"Admits m cells (?:0|\([^()]*(?:\([^()]*\))?\)) result", {"Admits": "Rattle.arena.specs.Admits.Admits"})

# for the check of this check, wrong contracts: what is wrong, of which contract, the text that is replaced (a pattern), the text instead
EDITS = [
    ("no clause", ASKED, ASKED[0], "arena.m ≤ m_most"),
    ("a clause that allows more cells", ASKED, ASKED[0], "need arena.m ≤ length (C.list cells)"),
    ("a clause under a condition", ASKED, f"({ASKED[0]})", r"(arena.m ≡ 0 → \1)"),
    ("a clause that allows another case", ASKED, f"({ASKED[0]})", r"(\1) ⊎ (arena.m ≡ 0)"),
    ("a clause that is promised, not asked", ASKED, " requires ", " ensures "),
    ("a clause in a comment", ASKED, " requires ", " // requires "),
    ("a clause in a long comment", ASKED, "\n +requires ", "\n    /*\n    requires "),
    ("a need of another kind", ASKED, r"Table\.{", "Other.{"),
    ("a length of another kind", ASKED, r"Prelude\.{", "Other.{"),
    ("no promise", ADMITTED, ADMITTED[0], "result ≡ result"),
    ("a promise under a condition", ADMITTED, f"({ADMITTED[0]})", r"(m ≡ 0 → \1)"),
    ("a promise of another m", ADMITTED, "Admits m cells", "Admits 3 cells"),
    ("a promise of another length", ADMITTED, "Admits m cells", "Admits m 3"),
    ("a promise that is asked", ADMITTED, " ensures ", " requires "),
    ("an admission of another kind", ADMITTED, r"Admits\.{", "Other.{"),
    ("another m", ADMITTED, r"fn (admit\w*)\(m: u64", r"fn \1(k: u64, m: u64"),
]

# an example for the check of this check: requests that are right and wrong
SAMPLE = """
#[derive(Clone, Copy)]
pub struct Arena {
    pub m: u64,
}

impl Arena {
    pub fn cells(self) -> usize {
        if self.m < 12 { 3 << self.m } else { 0 }
    }
}

#[derive(Drop)]
pub struct Book<'a> {
    cells: &'a mut [u64],
    pub arena: Arena,
}

impl<'a> Book<'a> {
    pub fn new(cells: &'a mut [u64], arena: Arena) -> Book<'a> {
        Book { cells, arena }
    }
}

fn admit(m: u64, cells: usize) -> Result<Arena, u64> {
    let arena = Arena { m };
    if cells < arena.cells() { Err(5) } else { Ok(arena) }
}

fn find(m: u64) -> Result<Arena, u64> {
    Ok(Arena { m })
}

pub fn rightly(t: &mut [u64], m: u64) -> u64 {
    match admit(m, t.len()) {
        Ok(arena) => {
            let book = Book::new(&mut t[..arena.cells()], arena);
            book.arena.m
        }
        Err(why) => why,
    }
}

pub fn rightly_too(n: u64, t: &mut [u64], m: u64) -> u64 {
    let Ok(arena) = admit(m, t.len()) else {
        return n;
    };
    let needed = arena.cells();
    let book = Book::new(&mut t[..needed], arena);
    book.arena.m
}

pub fn rightly_lent_on(t: &mut [u64], m: u64) -> u64 {
    match admit(m, t.len()) {
        Ok(arena) => {
            let cells = &mut t[..arena.cells()];
            let own = cells;
            let book = Book::new(own, arena);
            book.arena.m
        }
        Err(why) => why,
    }
}

pub fn rightly_split(t: &mut [u64], m: u64) -> u64 {
    match admit(m, t.len()) {
        Ok(arena) => {
            let (cells, _) = t.split_at_mut(arena.cells());
            Book::new(cells, arena).arena.m
        }
        Err(why) => why,
    }
}

fn is_long(t: &[u64]) -> bool {
    3 < t.len()
}

fn work(book: &mut Book<'_>, rest: &mut [u64]) {}

pub fn lends_all(t: &mut [u64], m: u64) -> u64 {
    if !is_long(t) {
        return m;
    }
    match admit(m, t.len()) {
        Ok(arena) => Book::new(&mut t[..arena.cells()], arena).arena.m,
        Err(why) => why,
    }
}

pub fn lends_the_rest(t: &mut [u64], m: u64) -> u64 {
    match admit(m, t.len()) {
        Ok(arena) => {
            let (cells, rest) = t.split_at_mut(arena.cells());
            let mut book = Book::new(cells, arena);
            work(&mut book, rest);
            book.arena.m
        }
        Err(why) => why,
    }
}

pub fn lends_the_rest_to_std(t: &mut [u64], m: u64) -> u64 {
    match admit(m, t.len()) {
        Ok(arena) => {
            let (cells, rest) = t.split_at_mut(arena.cells());
            rest.fill(0);
            Book::new(cells, arena).arena.m
        }
        Err(why) => why,
    }
}

pub fn the_rest(t: &mut [u64], m: u64) -> u64 {
    match admit(m, t.len()) {
        Ok(arena) => {
            let (_, cells) = t.split_at_mut(arena.cells());
            Book::new(cells, arena).arena.m
        }
        Err(why) => why,
    }
}

pub fn split_elsewhere(t: &mut [u64], m: u64) -> u64 {
    match admit(m, t.len()) {
        Ok(arena) => {
            let (cells, _) = t.split_at_mut(3);
            Book::new(cells, arena).arena.m
        }
        Err(why) => why,
    }
}

pub fn split_of_a_part(t: &mut [u64], m: u64) -> u64 {
    match admit(m, t.len()) {
        Ok(arena) => {
            let (cells, _) = t[1..].split_at_mut(arena.cells());
            Book::new(cells, arena).arena.m
        }
        Err(why) => why,
    }
}

pub fn one_of_two<'a>(t: &'a mut [u64], u: &'a mut [u64], m: u64) -> u64 {
    match admit(m, t.len()) {
        Ok(arena) => {
            let mut cells = &mut t[..arena.cells()];
            if m == 3 {
                cells = u;
            }
            Book::new(cells, arena).arena.m
        }
        Err(why) => why,
    }
}

pub fn all(t: &mut [u64], m: u64) -> u64 {
    match admit(m, t.len()) {
        Ok(arena) => Book::new(t, arena).arena.m,
        Err(why) => why,
    }
}

pub fn from_the_second(t: &mut [u64], m: u64) -> u64 {
    match admit(m, t.len()) {
        Ok(arena) => Book::new(&mut t[1..arena.cells()], arena).arena.m,
        Err(why) => why,
    }
}

pub fn half(t: &mut [u64], m: u64) -> u64 {
    match admit(m, t.len()) {
        Ok(arena) => Book::new(&mut t[..arena.cells() / 2], arena).arena.m,
        Err(why) => why,
    }
}

pub fn of_another_arena(t: &mut [u64], m: u64) -> u64 {
    match admit(m, t.len()) {
        Ok(arena) => {
            let other = Arena { m: 3 };
            Book::new(&mut t[..other.cells()], arena).arena.m
        }
        Err(why) => why,
    }
}

pub fn of_one_of_two(t: &mut [u64], m: u64) -> u64 {
    match admit(m, t.len()) {
        Ok(arena) => {
            let mut needed = arena.cells();
            if m == 3 {
                needed = 3;
            }
            Book::new(&mut t[..needed], arena).arena.m
        }
        Err(why) => why,
    }
}

pub fn in_another_arena(t: &mut [u64], m: u64) -> u64 {
    match admit(m, t.len()) {
        Ok(mut arena) => {
            arena.m = 3;
            Book::new(&mut t[..arena.cells()], arena).arena.m
        }
        Err(why) => why,
    }
}

pub fn in_its_own_arena(t: &mut [u64], m: u64) -> u64 {
    let arena = Arena { m };
    Book::new(&mut t[..arena.cells()], arena).arena.m
}

pub fn not_admitted(t: &mut [u64], m: u64) -> u64 {
    match find(m) {
        Ok(arena) => Book::new(&mut t[..arena.cells()], arena).arena.m,
        Err(why) => why,
    }
}

pub fn admitted_for_another_m(t: &mut [u64], m: u64) -> u64 {
    match admit(m / 2, t.len()) {
        Ok(arena) => Book::new(&mut t[..arena.cells()], arena).arena.m,
        Err(why) => why,
    }
}

pub fn admitted_for_a_changed_m(t: &mut [u64], mut m: u64) -> u64 {
    m = m / 2;
    match admit(m, t.len()) {
        Ok(arena) => Book::new(&mut t[..arena.cells()], arena).arena.m,
        Err(why) => why,
    }
}

pub fn admitted_for_a_number(t: &mut [u64], m: u64) -> u64 {
    match admit(m, 12288) {
        Ok(arena) => Book::new(&mut t[..arena.cells()], arena).arena.m,
        Err(why) => why,
    }
}

pub fn admitted_for_another_table(t: &mut [u64], u: &mut [u64], m: u64) -> u64 {
    match admit(m, u.len()) {
        Ok(arena) => Book::new(&mut t[..arena.cells()], arena).arena.m,
        Err(why) => why,
    }
}

pub fn admitted_for_another_table_then<'a>(t: &'a mut [u64], mut u: &'a mut [u64], m: u64) -> u64 {
    match admit(m, u.len()) {
        Ok(arena) => {
            u = t;
            Book::new(&mut u[..arena.cells()], arena).arena.m
        }
        Err(why) => why,
    }
}
"""
OTHER_CELLS = "makes its book over other cells than the first that its arena needs"
OTHER_ARENA = "has its arena from elsewhere than an admission of its own m and its table"
# the functions of the example that are wrong, each with what is to be said of it
FAULTS = {
    "lends_all": "lends a slice of u64 to sample::is_long, which makes no book",
    "lends_the_rest": "lends a slice of u64 to sample::work, which makes no book",
    "lends_the_rest_to_std": "lends a slice of u64 to std::slice+T::fill, which makes no book",
    "the_rest": OTHER_CELLS,
    "split_elsewhere": OTHER_CELLS,
    "split_of_a_part": OTHER_CELLS,
    "one_of_two": OTHER_CELLS,
    "all": OTHER_CELLS,
    "from_the_second": OTHER_CELLS,
    "half": OTHER_CELLS,
    "of_another_arena": OTHER_CELLS,
    "of_one_of_two": OTHER_CELLS,
    "in_another_arena": OTHER_ARENA,
    "in_its_own_arena": OTHER_ARENA,
    "not_admitted": OTHER_ARENA,
    "admitted_for_another_m": OTHER_ARENA,
    "admitted_for_a_changed_m": OTHER_ARENA,
    "admitted_for_a_number": OTHER_ARENA,
    "admitted_for_another_table": OTHER_ARENA,
    "admitted_for_another_table_then": OTHER_CELLS,
}


def head(source, function):
    """A function's parameters and its contract, as a source text has them."""
    found = re.search(rf"^( *)(?:pub )?fn {function}\b[^(\n]*\((.*?)^\1\{{", source, re.M | re.S)
    return found.group(2) if found else ""


def names(source, function):
    """The names of a function's parameters."""
    found = re.search(rf"^ *(?:pub )?fn {function}\b[^(\n]*\(([^)]*)\)", source, re.M)
    return re.findall(r"(\w+): ", found.group(1)) if found else []


def brought(source, word):
    """What a source text brings in under a word."""
    lists = re.findall(r"^ *ghost use (\S+)\.\{([^{}]*)\};$", source, re.M)
    return [f"{module}.{one}" for module, ones in lists for one in re.split(r",\s*", ones.strip()) if one.split(" as ")[-1] == word]


def says(source, function, kind, clause):
    """Whether a function has such a clause of a kind; a text with long comments, which could hide it, is not taken."""
    pattern, words = clause
    clauses = re.findall(rf"^ +{kind} (?:\w+ )?\{{ (.*) \}}$", head(source, function), re.M)
    meant = all(brought(source, word) == [whole] for word, whole in words.items())
    return meant and "/*" not in source and any(re.fullmatch(pattern, one) for one in clauses)


def kept(body, local):
    """Whether a local is a parameter that the function does not set, nor lends the address of."""
    whole = {value[1][1] for _, value in assigns(body) if value[0] == "addrOf" and value[1][2] == "lnil"}
    return local in parameters(body) and local not in whole | {target(node)[1] for node in walk(body[5]) if node[0] in ("assign", "call") and len(node) > 2}


def part_of_place(operand, steps):
    """The local that an operand copies a part of by these steps."""
    place = place_of(operand)
    return place[1] if place and [" ".join(map(str, step[:2])) if step[0] != "deref" else "deref" for step in items(place[2])] == steps else None


def value_of(body, local):
    """What the one assignment of a local assigns, if it is set so."""
    found = set_by(body, local) if local else None
    return found[2] if found and found[0] == "assign" else ["none"]


def call_of(body, local):
    """The function whose call alone sets a local, and its arguments."""
    found = set_by(body, local) if local else None
    return (callee(found), items(found[2])) if found and found[0] == "call" else (None, [])


def lent_on(body, operand):
    """The slice that an operand is, back over the same slice lent on: what is assigned to it first, or the local where it is a parameter that is kept."""
    local = local_of(operand)
    value = value_of(body, local)
    fields = items(value[1]) if value[0] == "aggregate" else []
    if len(fields) == 2:
        first = value_of(body, local_of(fields[0]))
        slice_ = part_of_place(["copy", first[1]], ["field 0", "deref"]) if first[0] == "addrOf" else None
        if slice_ and part_of_place(fields[1], ["field 1"]) == slice_:
            return lent_on(body, ["copy", ["place", slice_, "lnil"]])
        return [slice_, fields[1]]
    if value[0] == "rvOpd" and local_of(value[1]):
        return lent_on(body, value[1])
    split, given = call_of(body, part_of_place(value[1], ["field 0"])) if value[0] == "rvOpd" else (None, [])
    if split == SPLIT:
        return [lent_on(body, given[0]), given[1]]
    return local if local and kept(body, local) and is_table(kinds(body)[int(local)]) else None


def table_lent(body, cells, arena, counting):
    """The parameter of which exactly the first cells that an arena says, by the function that counts them, are lent."""
    table, length = found if isinstance(found := lent_on(body, cells), list) else (None, None)
    called, of = call_of(body, local_of(length)) if table else (None, [])
    right = called == counting and [local_of(one) for one in of] == [local_of(arena)]
    return table if right and isinstance(table, str) and kept(body, table) and is_table(kinds(body)[int(table)]) else None


def admission(body, arena, table, own):
    """The function that admits the request's own m and its table's length and hands out the arena, by the names of the request's parameters."""
    value = value_of(body, local_of(arena))
    result = part_of_place(value[1], ["variant 0", "field 1"]) if value[0] == "rvOpd" else None
    called, given = call_of(body, result)
    m = str(own.index("m") + 1) if "m" in own else None
    if len(given) < 2 or local_of(given[0]) != m or not kept(body, m):
        return None
    length = value_of(body, local_of(given[1]))
    return called if length[0] == "rvOpd" and part_of_place(length[1], ["field 1"]) == table else None


def request_faults(name, body, making, counting, admits, own):
    """Faults of a request: its book is made by one of the first functions, the second says how many cells an arena needs, the third whether a function admits.

    Those that make its book, and that by which its table is split, are all that is lent a slice of u64: so nobody else has its table, or the rest of it.
    """
    wrong = []
    for called, arguments, _ in calls(body):
        if called in making:
            table = table_lent(body, arguments[0], arguments[1], counting)
            if table is None:
                wrong.append(f"{name} {OTHER_CELLS}")
            elif not admits(admission(body, arguments[1], table, own)):
                wrong.append(f"{name} {OTHER_ARENA}")
        elif called != SPLIT and any(is_table(kind_of(body, one)) for one in arguments):
            wrong.append(f"{name} lends a slice of u64 to {called or 'a function that the call does not name'}, which makes no book")
    return wrong


def faults(bodies, requests, making, counting, source_of):
    """Faults of a program: its functions, its requests, the functions that make a book, that which counts the cells of an arena, the source of each."""
    for one in sorted(making):
        if not says(source_of(one), one.split("::")[-1], "requires", ASKED):
            return [f"{name} may make its book by {one}, which does not ask for exactly the needed cells" for name in requests]

    def admits(called):
        source, function = (source_of(called), called.split("::")[-1]) if called in bodies else ("", "")
        return names(source, function)[:2] == ["m", "cells"] and says(source, function, "ensures", ADMITTED)

    return [fault for name in sorted(requests) for fault in
            request_faults(name, bodies[name], making, counting, admits, names(source_of(name), name.split("::")[-1]))]
