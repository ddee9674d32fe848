"""No function but `cells::get` and `cells::put` reads or writes an element of a slice of u64: so no access to the table goes round the count.

Works on the code as it is proved and compiled (`mir.py`). There an element of a slice is reached by `offset` from the
slice's pointer, its field 0, and then by a `deref`. A part of a slice is made by `offset` too, and is not dereferenced. So that no element is
reached in another way, a slice of u64 stands nowhere but in a local or a parameter of its own, and as the cells of a book; one that stands by itself came in
or is a part of one that did, and is lent to functions that take such a slice, to be split in two, and for the cells of a book. A slice that is split came in, and
its parts become the cells of a book and are lent to nobody else. The functions that show the cells of a book are lent them behind a reference, and do nothing
but hand out that very slice, whole. Where no table can come in, the lists of requests and answers are free, and slices of a constant if
they are lent to nobody in the program.
"""
from mir import assigns, calls, given_types, items, kind_of, kinds, kinds_along, local_of, named, parameters, place_of, put_in, strayed, walk

# an example for the check of this check; a function whose name starts with `gets` is one that may make an access
SAMPLE = """
pub fn reads(t: &[u64]) -> u64 {
    if 3 < t.len() { t[3] } else { 0 }
}

pub fn reads_first(t: &[u64]) -> u64 {
    if 0 < t.len() { t[0] } else { 0 }
}

pub fn reads_two(t: &[u64]) -> u64 {
    if 3 < t.len() { t[3] - t[2] } else { 0 }
}

pub fn writes(t: &mut [u64]) {
    if 3 < t.len() {
        t[3] = 1;
    }
}

fn seven(x: &mut u64) {
    *x = 7;
}

pub fn lends(t: &mut [u64]) {
    if 3 < t.len() {
        seven(&mut t[3]);
    }
}

pub fn lends_a_part_and_reads(t: &[u64]) -> u64 {
    if 3 < t.len() {
        let n = count(&t[1..3]);
        if n == 2 { t[1] } else { 0 }
    } else {
        0
    }
}

fn count(t: &[u64]) -> usize {
    t.len()
}

pub fn lends_a_part(t: &[u64]) -> usize {
    if 3 < t.len() { count(&t[1..3]) } else { 0 }
}

pub fn reads_bytes(t: &[u8]) -> u8 {
    if 3 < t.len() { t[3] } else { 0 }
}

pub fn reads_an_array(i: usize) -> u64 {
    let a: [u64; 4] = [1, 2, 3, 4];
    if i < 4 { a[i] } else { 0 }
}

pub fn lends_an_array() -> usize {
    let a: [u64; 4] = [1, 2, 3, 4];
    count(&a)
}

pub fn lends_an_array_and_reads(t: &[u64]) -> u64 {
    let a: [u64; 4] = [1, 2, 3, 4];
    let n = count(&a);
    if n < t.len() { t[n] } else { 0 }
}

pub fn lends_an_array_at_times(t: &[u64]) -> usize {
    let a: [u64; 4] = [1, 2, 3, 4];
    let mut u = t;
    if t.len() < 4 {
        u = &a;
    }
    count(u)
}

// ---- a slice below the top of a type

#[derive(Clone, Copy)]
pub struct View<'a> {
    pub cells: &'a [u64],
    pub at: usize,
}

#[derive(Clone, Copy)]
pub struct Holder<'a> {
    pub view: View<'a>,
}

#[derive(Clone, Copy)]
pub struct Bytes<'a> {
    pub bytes: &'a [u8],
    pub at: usize,
}

pub fn reads_behind(t: &&mut [u64], at: usize) -> u64 {
    if at < t.len() { t[at] } else { 0 }
}

pub fn writes_behind(t: &mut &mut [u64], at: usize) {
    if at < t.len() {
        t[at] = 1;
    }
}

pub fn lends_behind(t: &mut [u64]) {
    let mut u = t;
    writes_behind(&mut u, 0);
}

pub fn reads_a_field(v: View, at: usize) -> u64 {
    v.cells[at]
}

pub fn reads_a_field_within(h: &Holder, at: usize) -> u64 {
    h.view.cells[at]
}

pub fn makes_a_struct(t: &[u64]) -> u64 {
    reads_a_field(View { cells: t, at: 1 }, 0)
}

pub fn reads_a_row(t: &[&[u64]], at: usize) -> u64 {
    t[0][at]
}

pub fn reads_one_of_two(t: [&[u64]; 2], at: usize) -> u64 {
    t[1][at]
}

pub fn reads_a_field_of_bytes(b: Bytes, at: usize) -> u8 {
    b.bytes[at]
}

// ---- functions that may make an access

pub fn gets(t: &[u64], at: usize) -> u64 {
    t[at]
}

pub fn gets_and_puts(t: &mut [u64], at: usize) {
    t[at] += 1;
}

fn twice(x: &u64) -> u64 {
    *x / 2 + *x / 2
}

pub fn gets_by_address(t: &[u64], at: usize) -> u64 {
    twice(&t[at])
}

pub fn gets_at_times(t: &[u64], at: usize) -> u64 {
    if at < 3 { t[at] } else { 0 }
}

pub fn gets_again_and_again(t: &[u64], at: usize) -> u64 {
    let mut sum: u64 = 0;
    let mut i: u64 = 0;
    while i < 3 {
        sum = sum / 2 + t[at] / 2;
        i = i + 1;
    }
    sum
}

pub fn gets_beside(t: &[u64], at: usize, other: &&[u64]) -> u64 {
    t[at]
}

// ---- lists of requests or answers

fn number_at(list: &[u64], at: usize) -> u64 {
    list[at]
}

pub fn asks(t: &[u64], list: &[u64]) -> u64 {
    number_at(&list[1..], count(t))
}

pub fn asks_twice(t: &[u64], list: &[u64]) -> u64 {
    asks(t, list) / 2 + asks(t, list) / 2
}

pub fn asks_the_table(t: &[u64], list: &[u64]) -> u64 {
    number_at(t, 0)
}

pub fn asks_the_wrong_way_round(t: &[u64], list: &[u64]) -> u64 {
    asks(list, t)
}

pub fn asks_what_was_assigned<'a>(t: &'a [u64], mut list: &'a [u64]) -> u64 {
    list = t;
    number_at(list, 0)
}

fn number_behind(list: &[u64], t: &&[u64]) -> u64 {
    list[0] / 2 + t[0] / 2
}

fn number_of_any<C: Cells>(list: &[u64], cells: &C) -> u64 {
    list[0] / 2 + cells.shown()[0] / 2
}

fn number_of_a_book(list: &[u64], book: &mut Book<&mut [u64]>) {
    book.cells[0] = list[0];
}

fn same(t: &[u64]) -> &[u64] {
    t
}

pub fn asks_what_was_called<'a>(t: &'a [u64], mut list: &'a [u64]) -> u64 {
    if 3 < t.len() {
        list = same(t);
    }
    number_at(list, 0)
}

pub fn asks_and_reads(t: &[u64], list: &[u64]) -> u64 {
    number_at(list, 0) / 2 + t[0] / 2
}

// ---- a slice in other forms

pub fn reads_in_a_loop(t: &[u64]) -> u64 {
    let mut all = 0;
    for x in t {
        all ^= *x;
    }
    all
}

pub fn writes_in_a_loop(t: &mut [u64]) {
    for x in t.iter_mut() {
        *x = 0;
    }
}

pub fn reads_by_a_pattern(t: &[u64]) -> u64 {
    match t {
        [first, ..] => *first,
        [] => 0,
    }
}

pub fn reads_the_first(t: &[u64]) -> Option<&u64> {
    t.first()
}

pub fn reads_by_get(t: &[u64]) -> Option<&u64> {
    t.get(3)
}

pub fn writes_by_swap(t: &mut [u64]) {
    if 3 < t.len() {
        t.swap(1, 2);
    }
}

pub fn writes_by_fill(t: &mut [u64]) {
    t.fill(0);
}

pub fn reads_by_an_iterator(t: &[u64]) -> bool {
    t.iter().any(|x| *x == 7)
}

pub fn reads_in_a_closure(t: &[u64], n: usize) -> Option<usize> {
    (0..n).find(|at| *at < t.len() && t[*at] == 7)
}

fn first_of_any<T: Copy>(t: &[T], other: T) -> T {
    if 0 < t.len() { t[0] } else { other }
}

pub fn reads_as_any(t: &[u64]) -> u64 {
    first_of_any(t, 0)
}

fn itself<T>(x: T) -> T {
    x
}

pub fn lends_as_any(t: &[u64]) -> usize {
    count(itself(t))
}

pub fn wraps(t: &[u64]) -> Option<&[u64]> {
    if 3 < t.len() { Some(t) } else { None }
}

pub fn splits(t: &mut [u64]) -> usize {
    let (first, rest) = t.split_at_mut(3);
    count(first) / 2 + count(rest) / 2
}

pub fn splits_for_a_book(t: &mut [u64]) -> u64 {
    let (first, _) = t.split_at_mut(3);
    let mut book = Book::new(first);
    book.put(0);
    book.get(1)
}

pub fn splits_and_lends_the_rest(t: &mut [u64]) -> usize {
    let (first, rest) = t.split_at_mut(3);
    let mut book = Book::new(first);
    book.put(0);
    count(rest)
}

pub fn splits_again(t: &mut [u64]) -> u64 {
    let (_, rest) = t.split_at_mut(3);
    let (first, _) = rest.split_at_mut(3);
    Book::new(first).get(1)
}

pub fn splits_and_hands_one_out(t: &mut [u64]) -> &mut [u64] {
    let (first, _) = t.split_at_mut(3);
    first
}

pub fn splits_and_writes(t: &mut [u64]) {
    t.split_at_mut(3).1[0] = 7;
}

pub fn splits_and_hands_out(t: &mut [u64]) -> (&mut [u64], usize) {
    let (first, rest) = t.split_at_mut(3);
    (first, 3)
}

pub fn pairs(t: &[u64]) -> (&[u64], usize) {
    (t, t.len())
}

// ---- cells that are lent

pub trait Cells: Drop {
    fn shown(&self) -> &[u64];
}

impl<'a> Cells for &'a [u64] {
    fn shown(&self) -> &[u64] {
        self
    }
}

impl<'a> Cells for &'a mut [u64] {
    fn shown(&self) -> &[u64] {
        if self[0] == 7 { self } else { &self[1..] }
    }
}

pub trait Rest {
    fn rest(&self) -> &[u64];
}

impl<'a> Rest for &'a [u64] {
    fn rest(&self) -> &[u64] {
        &self[1..]
    }
}

impl<'a> Rest for &'a mut [u64] {
    fn rest(&self) -> &[u64] {
        same(self)
    }
}

#[derive(Drop)]
pub struct Book<C: Cells> {
    cells: C,
    spent: u64,
}

impl<C: Cells> Book<C> {
    pub fn new(cells: C) -> Book<C> {
        Book { cells, spent: 0 }
    }

    pub fn get(&self, at: usize) -> u64 {
        gets(self.cells.shown(), at)
    }

    pub fn peek(&self, at: usize) -> u64 {
        self.cells.shown()[at]
    }
}

impl<'a> Book<&'a mut [u64]> {
    pub fn put(&mut self, at: usize) {
        count(self.cells);
    }

    pub fn set(&mut self, at: usize, v: u64) {
        self.cells[at] = v;
    }

    pub fn find_and_set(&mut self, at: usize, v: u64) {
        if SIZES.iter().any(|size| *size == v) {
            self.cells[at] = v;
        }
    }
}

#[derive(Drop)]
pub struct Shelf<C: Cells> {
    cells: C,
}

pub fn makes_a_book(t: &mut [u64]) -> u64 {
    let mut book = Book::new(&mut t[..3]);
    book.put(0);
    book.get(1)
}

pub fn makes_a_shelf(t: &[u64]) -> usize {
    let shelf = Shelf { cells: t };
    3
}

pub fn makes_a_book_of_an_array() -> u64 {
    let a: [u64; 4] = [1, 2, 3, 4];
    let book = Book::new(&a[..]);
    book.get(1)
}

// ---- a constant

const SIZES: [u64; 3] = [16, 32, 48];

pub fn finds_a_size(n: u64) -> Option<usize> {
    SIZES.iter().position(|size| n <= *size)
}

pub fn lends_a_constant() -> usize {
    count(&SIZES)
}

pub fn finds_a_size_and_reads(t: &[u64]) -> bool {
    let x = t.first();
    SIZES.iter().any(|size| *size == 7)
}
"""
# the functions of the example that have lists of requests or answers, each with the numbers of its parameters that are
SAMPLE_LISTS = {f"sample::{name}": {"2"} for name in ("asks", "asks_twice", "asks_the_table", "asks_the_wrong_way_round", "asks_what_was_assigned",
                                                      "asks_what_was_called", "asks_and_reads")}
SAMPLE_LISTS |= {f"sample::{name}": {"1"} for name in ("number_at", "number_behind", "number_of_any", "number_of_a_book")}
# the functions of the example that are wrong, each with what is to be said of it
FAULTS = {
    "reads": "reaches 1 elements",
    "reads_first": "reaches 1 elements",
    "reads_two": "reaches 2 elements",
    "writes": "reaches 1 elements",
    "lends": "reaches 1 elements",
    "lends_a_part_and_reads": "reaches 1 elements",
    "lends_an_array": "has a slice of u64 that is no part of one that came in",
    "lends_an_array_and_reads": "reaches 1 elements",
    "lends_an_array_at_times": "has a slice of u64 that is no part of one that came in",
    "reads_behind": "has a slice of u64 below the top of a type",
    "writes_behind": "has a slice of u64 below the top of a type",
    "lends_behind": "has a slice of u64 below the top of a type",
    "reads_a_field": "has a slice of u64 below the top of a type",
    "reads_a_field_within": "has a slice of u64 below the top of a type",
    "makes_a_struct": "has a slice of u64 below the top of a type",
    "reads_a_row": "has a slice of u64 below the top of a type",
    "reads_one_of_two": "has a slice of u64 below the top of a type",
    "gets_and_puts": "reaches 2 elements",
    "gets_by_address": "takes the address of an element",
    "gets_at_times": "has a branch or a loop",
    "gets_again_and_again": "has a branch or a loop",
    "asks_the_table": "lends sample::number_at something else than a list",
    "asks_the_wrong_way_round": "lends sample::asks something else than a list",
    "asks_what_was_assigned": "lends sample::number_at something else than a list",
    "asks_what_was_called": "lends sample::number_at something else than a list",
    "asks_and_reads": "reaches 1 elements",
    "gets_beside": "has a slice of u64 below the top of a type",
    "number_behind": "has a slice of u64 below the top of a type",
    "number_of_any": "reaches 2 elements",
    "number_of_a_book": "reaches 2 elements",
    "reads_in_a_loop": "reaches 1 elements",
    "writes_in_a_loop": "reaches 1 elements",
    "reads_by_a_pattern": "reaches 1 elements",
    "reads_the_first": "lends a slice of u64 to std::slice+T::first",
    "reads_by_get": "lends a slice of u64 to std::slice+T::get",
    "writes_by_swap": "lends a slice of u64 to std::slice+T::swap",
    "writes_by_fill": "lends a slice of u64 to std::slice+T::fill",
    "reads_by_an_iterator": "lends a slice of u64 to std::slice+T::iter",
    "reads_in_a_closure": "has a slice of u64 below the top of a type",
    "fn::reads_in_a_closure::find": "has a slice of u64 below the top of a type",
    "fn::reads_in_a_closure::find+FnMut::call_mut": "has a slice of u64 below the top of a type",
    "fn::reads_in_a_closure::find+FnOnce::call_once": "has a slice of u64 below the top of a type",
    "reads_as_any": "lends a slice of u64 to sample::first_of_any",
    "lends_as_any": "lends a slice of u64 to sample::itself",
    "wraps": "has a slice of u64 below the top of a type",
    "splits": "does something else with a slice that it splits than make a book",
    "splits_again": "does something else with a slice that it splits than make a book",
    "splits_and_hands_one_out": "does something else with a slice that it splits than make a book",
    "splits_and_lends_the_rest": "does something else with a slice that it splits than make a book",
    "splits_and_writes": "reaches 1 elements",
    "splits_and_hands_out": "has a slice of u64 below the top of a type",
    "pairs": "has a slice of u64 below the top of a type",
    "RefMutSliceU64Cells::shown": "reaches 1 elements",
    "RefMutSliceU64Rest::rest": "hands out something else than the very slice that it is lent",
    "RefSliceU64Rest::rest": "hands out something else than the very slice that it is lent",
    "Book::peek": "reaches 1 elements",
    "Book+mut+slice+u64::find_and_set": "reaches 1 elements",
    "Book+mut+slice+u64::set": "reaches 1 elements",
    "makes_a_shelf": "has a slice of u64 below the top of a type",
    "makes_a_book_of_an_array": "has a slice of u64 that is no part of one that came in",
    "lends_a_constant": "has a slice of u64 that is no part of one that came in",
    "finds_a_size_and_reads": "lends a slice of u64 to std::slice+T::first",
}


# by which a slice may be split in two parts
SPLIT = "std::slice+T::split_at_mut"


def is_table(kind):
    """A slice of u64."""
    if not (isinstance(kind, list) and kind[:2] == ["tyStruct", '"&[]"']):
        return False
    parts = items(kind[2])
    return bool(parts) and parts[0][0] == "tyRef" and parts[0][-1] == ["tyInt", "64"]


def slices(body):
    """The locals that are slices of u64."""
    return {str(number) for number, kind in enumerate(kinds(body)) if is_table(kind)}


def buried(body, holders):
    """How many slices of u64 a function's types have below their top, but for the cells of a table or a book: behind a reference, in an array, in a field of a struct."""
    known = {id(kind) for kind in kinds(body)}
    # both parts of a slice that was split, on their way into locals of their own
    pairs = {int(target[1]) for name, _, target in calls(body) if name == SPLIT and target[2] == "lnil"}
    known |= {id(one) for number in pairs for one in given_types(kinds(body)[number])}
    for node in walk(body):
        if node[0] == "tyNamed" and node[1][1].strip('"') in holders:
            known |= {id(one) for one in given_types(node)}
        if node[0] == "direct":
            known |= {id(one) for one in items(node[2])}
    return sum(1 for node in walk(body) if is_table(node) and id(node) not in known)


def names_pointer(body, place):
    """Whether a place steps to the pointer of a slice of u64, or through it; and whether it ends there."""
    steps = items(place[2])
    found = [at for at, (kind, step) in enumerate(zip(kinds_along(body, place), steps)) if is_table(kind) and step == ["field", "0"]]
    return bool(found), found == [len(steps) - 1]


def elements(body):
    """The places that name an element of a slice of u64, or its pointer other than to make a pointer into it."""
    pointers = set()
    making = {id(target) for target, _ in assigns(body) if not items(target[2])}
    for target, value in assigns(body):
        base = place_of(value[2]) if value[:2] == ["op2", "offset"] else None
        if base and names_pointer(body, base) == (True, True):
            pointers.add(target[1])
            making.add(id(base))
    return [place for place in named(body) if id(place) not in making and (place[1] in pointers or names_pointer(body, place)[0])]


def lent_elements(body):
    """The locals that the address of an element goes into, one for each time that it does."""
    known = {id(place) for place in elements(body)}
    return [target[1] for target, value in assigns(body) if value[0] == "addrOf" and id(value[1]) in known]


def reached(body):
    """How often a function's code names an element of a slice of u64."""
    # a part of a slice: the address of its first element goes into the pair of a new slice and into nothing else
    lent = lent_elements(body)
    uses = [place[1] for place in named(body)]
    pairs = [local_of(items(value[1])[0]) for target, value in assigns(body)
             if value[0] == "aggregate" and target[1] in slices(body) and not items(target[2])]
    return len(elements(body)) - sum(1 for first in pairs if lent.count(first) == 1 and uses.count(first) == 2)


def access_faults(body):
    """What keeps a function from making exactly one access, by a read or a store of its own."""
    wrong = [f"reaches {reached(body)} elements of a slice of u64"] if reached(body) != 1 else []
    wrong += ["takes the address of an element"] if lent_elements(body) else []
    return wrong + (["has a branch or a loop"] if any(node[0] in ("if", "switch", "block", "loop") for node in walk(body[5])) else [])


def origins(body, local, seen=()):
    """What a slice is made from: the numbers of parameters, `a call` where one gives it, `an array` of the function's own."""
    kind = kinds(body)[int(local)]
    if local in seen or kind == ["tyInt", "64"]:
        return set()
    found = {local} if local in parameters(body) else {"an array"} if kind[0] == "tyArray" else set()
    found |= {"a call" for _, _, target in calls(body) if target[1] == local}
    found |= {"a constant" for node in walk(body[5]) if node[0] == "lendStatic" and node[1][1] == local}
    for target, value in assigns(body):
        if target[1] == local:
            found = found.union(*(origins(body, place[1], (*seen, local)) for place in named(value)))
    return found


def mistaken(body, own, lists):
    """The functions that are lent something else than lists where they have lists; the function's own lists are the parameters of these numbers."""
    for called, arguments, _ in calls(body):
        for number in lists.get(called, ()):
            lent = origins(body, place_of(arguments[int(number) - 1])[1])
            if not lent or not lent <= own:
                yield called


def may_bring_tables(body):
    """The parameters that may bring a slice of u64 in, also behind the names of types: what has a type parameter may."""
    found = set()
    for number in parameters(body):
        shapes = {one[1]: one[2] for one in items(body[6])}
        ahead = [kinds(body)[int(number)]]
        while ahead:
            for node in walk(ahead.pop()):
                if is_table(node) or node[:1] == ["tyParam"]:
                    found.add(number)
                if node[:1] == ["tyNamed"] and node[1][1] in shapes:
                    ahead.append(put_in(shapes.pop(node[1][1]), given_types(node)))
    return found


def of_lists(body, own):
    """Whether all that may bring a slice of u64 in is the function's own lists: so it has no table."""
    return bool(own) and own == slices(body) & {*parameters(body)} == may_bring_tables(body)


def of_a_constant(body, bodies):
    """Whether no slice of u64 may come in, and all that a function has are of constants, and are lent to nobody in the program."""
    lent = {one for one, arguments, _ in calls(body) if any(is_table(kind_of(body, it)) for it in arguments)}
    are_constant = all(origins(body, one) == {"a constant"} for one in slices(body))
    return bool(slices(body)) and not may_bring_tables(body) and are_constant and not lent & set(bodies)


def shows(body):
    """Whether a function does nothing but hand out, whole, the very slice that it is lent behind a reference."""
    def is_of_it(operand, steps):
        place = place_of(operand)
        return bool(place) and place[1] == "1" and [step[:2] if step[0] == "field" else step[0] for step in items(place[2])] == steps

    made = {target[1]: value for target, value in assigns(body) if target[2] == "lnil"}
    parts = [made.get(local_of(one), ["none"]) for one in items(made["0"][1])] if made.get("0", [""])[0] == "aggregate" else []
    plain = len(made) == len(assigns(body)) == 3 and not list(calls(body)) and not any(node[0] in ("if", "switch", "block", "loop") for node in walk(body[5]))
    lent = kinds(body)[1] if parameters(body) == ["1"] else ["none"]
    return (plain and lent[0] == "tyRef" and is_table(lent[-1]) and is_table(kinds(body)[0]) and [one[0] for one in parts] == ["addrOf", "rvOpd"]
            and is_of_it(["copy", parts[0][1]], ["deref", ["field", "0"], "deref"]) and is_of_it(parts[1][1], ["deref", ["field", "1"]]))


def splits_wrongly(body, makers):
    """Whether a function that splits a slice does something else with it, or with its parts, than make a book: it hands none out, and lends them to nobody else."""
    split = [(arguments[0], target) for name, arguments, target in calls(body) if name == SPLIT]
    pairs = {target[1] for _, target in split}
    whole = [place for place in named(body[5]) if place[1] in pairs and place[2] == "lnil"]
    lent = {name for name, arguments, _ in calls(body) if any(is_table(kind_of(body, one)) for one in arguments)}
    came_in = all(place_of(one) and origins(body, place_of(one)[1]) <= {*parameters(body)} for one, _ in split)
    return bool(split) and not (came_in and lent <= {SPLIT, *makers} and len(whole) == len(split) and not is_table(kinds(body)[0]))


def faults(bodies, accesses, makers, shown, holders, lists, hosts):
    """Faults of a program: its functions, those that make one access each, those that are lent the cells of a book, those that show the cells behind a
    reference, the types of books, the numbers of the parameters that are lists of requests or answers, the functions of the host that lends the table.
    """
    wrong = []
    for name, body in bodies.items():
        if body[5] == "return":
            # what a trait asks of its impls
            continue
        own = lists.get(name, set())
        found = [f"lends {one} something else than a list of requests or answers" for one in mistaken(body, own, lists)]
        found += access_faults(body) if name in accesses else []
        if not (of_lists(body, own) or of_a_constant(body, bodies)):
            if name not in hosts:
                found += [f"reaches {reached(body)} elements of a slice of u64"] if reached(body) and name not in accesses else []
                found += ["has a slice of u64 that is no part of one that came in"] if not all(
                    one and one <= {*parameters(body), "a call"} for one in (origins(body, one) for one in slices(body))) else []
            found += ["has a slice of u64 below the top of a type"] if buried(body, holders) and name not in shown else []
            found += ["hands out something else than the very slice that it is lent"] if name in shown and not shows(body) else []
            found += [f"lends a slice of u64 to {one}" for one in strayed(body, bodies, is_table) if one not in {*makers, SPLIT}]
            found += ["does something else with a slice that it splits than make a book"] if splits_wrongly(body, makers) else []
        wrong += [f"{name} {one}" for one in dict.fromkeys(found)]
    return wrong
