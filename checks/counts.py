"""The number of accesses that a request hands out is the one that `cells::get` and `cells::put` counted.

The contracts say that each of them adds one, and they bound the number that a request hands out. They can't say that every function on the way
counts on this one number, or that it is the number handed out. These rules over the code as it is proved and compiled (`mir.py`) say it:

- A function that counts has one `&mut u64`, its last parameter, or is one of a book, which has its count as its second field. It does nothing with the
  count but lend it on, as the last argument, to functions that count, and lends such a function nothing else. `cells::count` alone looks behind it, and
  adds one. Those that make an access, and no others, call it, once, and call nothing else.
- `Book::new` sets a book's count to 0, and `Book::spent` tells it. Elsewhere a book is lent on as it came, to functions that take one there, and its arena is
  read: nothing else is done with it. So it stands nowhere but behind a reference of its own, and nobody below a request has one of its own or looks at its
  count.
- A request is lent no book and makes one, over a slice of u64, and has no loop. On each way to its end it hands out a reply whose second field is what the
  book's `spent` told when nothing more was done with the book, or 0 where no book was made.
- A function that is handed a reply with its count returns it as it is or puts its count into a result of its own, where it is handed no more than this one, or
  adds its count to a sum that was set to 0 once, before any such call, and returns a result with the sum's last value at its end. A result with no count is
  for where nothing was counted.
- A function of the C interface makes one request at most, by itself and by all that it calls.
- Each call names the function that it calls, but for those that run.py lists, and no function that makes a request is handed on as a value. The host,
  which is no part of the library, may call through a bound, and has no book. Who may do so lends no count there, by itself or in a struct.

Where the code has another shape than these rules know, they complain.
"""
import functools
from dataclasses import dataclass, replace

from accesses import is_table
from mir import (addressed, arms, assigns, callee, calls, given_types, handed, items, kind_of, kinds, kinds_along, local_of, named, parameters, place_of, strayed,
                 target, walk, ways)

NONE = ["int", "64", "0"]
# the parts of a function: one that is free makes requests and hands out no count, and so does the host that lends the table; one that tells makes replies
# with no count
PARTS = ("counts", "opens", "adds", "asks", "free", "host")
HANDING = ("opens", "tells", "adds")
# the functions of a book that are what their names say and nothing more
EXACT = ("new", "over", "spent")

# an example for the check of this check; the first word of a function's name is the part that it plays, and `Loose` is a book that is not right
SAMPLE = """
use std::mem;

// ---- a count that is lent, and a book that has one

pub fn counts_one(spent: &mut u64) {
    *spent += 1;
}

pub fn counts_two_at_once(spent: &mut u64) {
    *spent += 2;
}

pub fn counts_get(t: &[u64], at: usize, spent: &mut u64) -> u64 {
    counts_one(spent);
    t[at]
}

pub fn counts_get_and_set(t: &mut [u64], at: usize, v: u64, spent: &mut u64) {
    counts_one(spent);
    t[at] = v;
}

pub trait Cells: Drop {
    fn shown(&self) -> &[u64];
}

impl<'a> Cells for &'a [u64] {
    fn shown(&self) -> &[u64] {
        self
    }
}

impl<'a> Cells for &'a mut [u64] {
    fn shown(&self) -> &[u64] {
        self
    }
}

#[derive(Drop)]
pub struct Book<C: Cells> {
    cells: C,
    spent: u64,
    pub arena: u64,
}

pub type Written<'a> = Book<&'a mut [u64]>;

pub type Shown<'a> = Book<&'a [u64]>;

impl<C: Cells> Book<C> {
    pub fn new(cells: C, arena: u64) -> Book<C> {
        Book {
            cells,
            spent: 0,
            arena,
        }
    }

    pub fn spent(&self) -> u64 {
        self.spent
    }

    pub fn get(&mut self, at: usize) -> u64 {
        counts_get(self.cells.shown(), at, &mut self.spent)
    }
}

impl<'a> Book<&'a mut [u64]> {
    pub fn over(cells: &'a mut [u64], arena: u64) -> Book<&'a mut [u64]> {
        Book::new(cells, arena)
    }

    pub fn put(&mut self, at: usize, v: u64) {
        counts_get_and_set(self.cells, at, v, &mut self.spent);
        let arena = self.arena;
        counts_passing(self.cells, arena, &mut self.spent);
    }

    pub fn put_two(&mut self, at: usize) {
        self.put(at, 1);
        counts_get_and_set(self.cells, 3, 4, &mut self.spent);
    }
}

#[derive(Clone, Copy)]
pub struct Counted<T> {
    pub answer: Result<T, u64>,
    pub spent: u64,
}

impl<T> Counted<T> {
    pub fn refused(why: u64) -> Counted<T> {
        Counted {
            answer: Err(why),
            spent: 0,
        }
    }
}

impl Counted<u64> {
    pub fn number(self) -> u64 {
        match self.answer {
            Ok(n) => n,
            Err(why) => why,
        }
    }

    pub fn set_to_nothing(&mut self) {
        self.spent = 0;
    }

    pub fn set_to(&mut self, n: u64) {
        self.spent = n;
    }
}

#[derive(Clone, Copy)]
pub struct NotServed;

#[derive(Clone, Copy)]
pub struct Served {
    pub answer: Result<(), NotServed>,
    pub spent: u64,
}

// ---- a book that is not right

#[derive(Drop)]
pub struct Loose<C: Cells> {
    cells: C,
    spent: u64,
    pub arena: u64,
}

impl<C: Cells> Loose<C> {
    pub fn new(cells: C, arena: u64) -> Loose<C> {
        Loose {
            cells,
            spent: 1,
            arena,
        }
    }

    pub fn spent(&self) -> u64 {
        self.spent / 2
    }

    pub fn get(&mut self, at: usize) -> u64 {
        let mut spent = self.spent;
        counts_get(self.cells.shown(), at, &mut spent)
    }

    pub fn peek(&self, at: usize) -> usize {
        self.cells.shown().len()
    }

    pub fn reset(&mut self) {
        self.spent = 0;
    }

    pub fn count(&mut self) {
        counts_one(&mut self.spent);
    }

    pub fn empty(&mut self) {
        set_to_nothing(&mut self.spent);
    }

    pub fn beside(cells: &[u64], at: usize) -> u64 {
        let mut spent = 0;
        counts_get(cells, at, &mut spent)
    }

    pub fn in_a_pair(pair: &mut (u64, u64), cells: &[u64], at: usize) -> u64 {
        counts_get(cells, at, &mut pair.1)
    }

    pub fn lend<T: Other>(&mut self, other: &T) {
        other.add(&mut self.spent);
    }

    pub fn address(&mut self) -> &mut u64 {
        &mut self.spent
    }

    pub fn begin(&mut self, cells: C) {
        *self = Loose {
            cells,
            spent: 0,
            arena: 1,
        };
    }

    pub fn take_over(&mut self, other: Loose<C>) {
        *self = other;
    }
}

impl<'a> Loose<&'a mut [u64]> {
    pub fn over(cells: &'a mut [u64], arena: u64) -> Loose<&'a mut [u64]> {
        let mut made = Loose::new(cells, arena);
        made.reset();
        made
    }

    pub fn put(&mut self, at: usize, v: u64, spent: &mut u64) {
        counts_get_and_set(self.cells, at, v, spent);
    }
}

// ---- functions that are lent a count

pub fn counts_get_for_nothing(at: u64, spent: &mut u64) -> u64 {
    at
}

pub fn counts_get_for_two(t: &[u64], at: usize, spent: &mut u64) -> u64 {
    counts_one(spent);
    counts_one(spent);
    t[at]
}

pub fn counts_passing(t: &[u64], n: u64, spent: &mut u64) -> u64 {
    let mut all = 0;
    for i in 0..n {
        all ^= counts_get(t, i as usize, spent);
    }
    all ^ counts_get(t, 3, &mut *spent)
}

pub fn counts_on_another_number(t: &[u64], spent: &mut u64) -> u64 {
    let mut other = 0;
    counts_get(t, 3, &mut other)
}

pub fn counts_a_number_back(t: &[u64], spent: &mut u64) -> u64 {
    let x = counts_get(t, 3, &mut *spent);
    *spent = *spent / 2;
    x
}

pub fn counts_by_its_number(t: &[u64], spent: &mut u64) -> u64 {
    if *spent < 3 { counts_get(t, 3, &mut *spent) } else { 0 }
}

pub fn counts_first(spent: &mut u64, n: u64) -> u64 {
    n
}

pub fn counts_two_numbers(other: &mut u64, spent: &mut u64) {}

pub fn counts_and_lends_it_elsewhere(t: &[u64], spent: &mut u64) -> u64 {
    let x = counts_get(t, 3, &mut *spent);
    set_to_nothing(&mut *spent);
    x
}

#[derive(Drop)]
pub struct Lender<'a> {
    pub spent: &'a mut u64,
}

fn set_behind_to_nothing(lender: Lender<'_>) {
    *lender.spent = 0;
}

pub fn counts_and_lends_in_a_struct(t: &[u64], spent: &mut u64) -> u64 {
    let x = counts_get(t, 3, &mut *spent);
    set_behind_to_nothing(Lender { spent: &mut *spent });
    x
}

pub fn counts_and_hands_its_number_out(spent: &mut u64) -> &mut u64 {
    &mut *spent
}

pub fn counts_without_access(spent: &mut u64) {
    counts_one(spent);
}

pub fn counts_not(t: &[u64]) -> u64 {
    let mut spent = 0;
    counts_get(t, 3, &mut spent)
}

// ---- functions that count

pub fn counts_rightly<C: Cells>(book: &mut Book<C>, n: u64) -> u64 {
    let mut all = book.arena;
    for i in 0..n {
        all ^= book.get(i as usize);
    }
    let own = book;
    all ^ own.get(2)
}

pub fn counts_and_writes(book: &mut Written<'_>, n: u64) -> Option<u64> {
    let last = (0..n).find(|i| *i == 7)?;
    book.put(1, last);
    Some(counts_rightly(book, n))
}

pub fn counts_by_its_count(book: &mut Shown<'_>) -> u64 {
    if book.spent() < 3 { book.get(0) } else { 0 }
}

pub fn counts_on_another(book: &mut Shown<'_>, t: &[u64]) -> u64 {
    let mut other = Book::new(t, book.arena);
    other.get(0)
}

pub fn counts_on_what_is_given(mut book: Shown<'_>) -> u64 {
    book.get(0)
}

pub fn counts_two(book: &mut Shown<'_>, other: &mut Shown<'_>) -> u64 {
    book.get(0) ^ other.get(0)
}

pub fn counts_back(book: &mut Shown<'_>) -> u64 {
    book.spent = 0;
    book.get(0)
}

pub fn counts_in_another_arena(book: &mut Shown<'_>) -> u64 {
    book.arena = 3;
    book.get(0)
}

pub fn counts_and_swaps<'a>(book: &mut Shown<'a>, other: &mut Shown<'a>) {
    mem::swap(book, other);
}

fn taken_for_any<T>(_x: &mut T) {}

pub fn counts_and_lends_to_any(book: &mut Shown<'_>) -> u64 {
    taken_for_any(&mut *book);
    book.get(0)
}

pub fn counts_and_becomes<'a>(book: &mut Shown<'a>, other: Shown<'a>) {
    *book = other;
}

pub fn counts_in_a_closure(book: &mut Shown<'_>, n: u64) -> Option<u64> {
    (0..n).find(|i| book.get(*i as usize) == 0)
}

pub fn counts_in_a_pair(pair: (&mut Shown<'_>, u64)) -> u64 {
    pair.0.get(0)
}

pub fn counts_in_an_option(book: Option<&mut Shown<'_>>) -> u64 {
    match book {
        Some(book) => book.get(0),
        None => 0,
    }
}

#[derive(Drop)]
pub struct Holder<'a, 'b> {
    book: &'a mut Shown<'b>,
}

pub fn counts_in_a_struct(holder: Holder<'_, '_>) -> u64 {
    let own = holder;
    own.book.get(0)
}

pub fn counts_and_hands_it_out<'a, 'b>(book: &'a mut Shown<'b>) -> &'a mut Shown<'b> {
    book
}

pub fn counts_apart(t: &mut [u64], n: u64) -> u64 {
    let one = opens_rightly(t, n);
    one.number()
}

pub fn counts_on_its_own(book: &mut Shown<'_>, t: &[u64]) -> u64 {
    counts_get(t, 3, &mut book.spent)
}

pub fn counts_its_cells(book: &mut Shown<'_>) -> usize {
    book.cells.len()
}

pub fn counts_and_hands_out_a_reply(book: &mut Shown<'_>) -> Counted<u64> {
    Counted {
        answer: Ok(book.get(0)),
        spent: 1,
    }
}

// ---- requests

pub fn opens_rightly(t: &mut [u64], n: u64) -> Counted<u64> {
    if n == 0 {
        return Counted::refused(1);
    }
    if n == 1 {
        return Counted {
            answer: Ok(1),
            spent: 0,
        };
    }
    let mut book = Book::over(&mut t[..3], n);
    let found = counts_and_writes(&mut book, n);
    if let Some(x) = found {
        return Counted {
            answer: Ok(x),
            spent: book.spent(),
        };
    }
    let arena = book.arena;
    let y = counts_rightly(&mut book, arena);
    Counted {
        answer: Ok(y),
        spent: book.spent(),
    }
}

pub fn opens_by_a_match(t: &[u64], admitted: Result<u64, u64>) -> Counted<()> {
    match admitted {
        Ok(arena) => {
            let mut book = Book::new(&t[..3], arena);
            counts_rightly(&mut book, 3);
            Counted {
                answer: Ok(()),
                spent: book.spent(),
            }
        }
        Err(why) => Counted::refused(why),
    }
}

pub fn opens_nothing(n: u64) -> Counted<u64> {
    Counted::refused(n)
}

pub fn opens_nothing_and_tells_five(t: &[u64], n: u64) -> Counted<u64> {
    if n == 0 {
        return Counted {
            answer: Ok(0),
            spent: 5,
        };
    }
    let mut book = Book::new(t, n);
    let x = book.get(0);
    Counted {
        answer: Ok(x),
        spent: book.spent(),
    }
}

pub fn opens_and_then_refuses(t: &[u64], n: u64) -> Counted<u64> {
    let mut book = Book::new(t, n);
    let x = book.get(0);
    if x == 7 {
        return Counted::refused(7);
    }
    Counted {
        answer: Ok(x),
        spent: book.spent(),
    }
}

pub fn opens_and_tells_none(t: &[u64], n: u64) -> Counted<u64> {
    let mut book = Book::new(t, n);
    let x = book.get(0);
    Counted {
        answer: Ok(x),
        spent: 0,
    }
}

pub fn opens_and_tells_early(t: &[u64], n: u64) -> Counted<u64> {
    let mut book = Book::new(t, n);
    let x = book.get(0);
    let before = book.spent();
    let y = book.get(1);
    Counted {
        answer: Ok(x ^ y),
        spent: before,
    }
}

pub fn opens_and_tells_half(t: &[u64], n: u64) -> Counted<u64> {
    let mut book = Book::new(t, n);
    let x = book.get(0);
    Counted {
        answer: Ok(x),
        spent: book.spent() / 2,
    }
}

pub fn opens_and_sets_what_it_tells(t: &[u64], n: u64) -> Counted<u64> {
    let mut book = Book::new(t, n);
    let x = book.get(0);
    let mut spent = book.spent();
    if x == 7 {
        spent = 3;
    }
    Counted {
        answer: Ok(x),
        spent,
    }
}

fn set_to_nothing(x: &mut u64) {
    *x = 0;
}

pub fn opens_and_lends_what_it_tells(t: &[u64], n: u64) -> Counted<u64> {
    let mut book = Book::new(t, n);
    let x = book.get(0);
    let mut spent = book.spent();
    set_to_nothing(&mut spent);
    Counted {
        answer: Ok(x),
        spent,
    }
}

pub fn opens_and_sets_its_reply(t: &[u64], n: u64) -> Counted<u64> {
    let mut book = Book::new(t, n);
    let x = book.get(0);
    let mut counted = Counted {
        answer: Ok(x),
        spent: book.spent(),
    };
    counted.spent = 0;
    counted
}

pub fn opens_and_tells_none_once(t: &[u64], n: u64) -> Counted<u64> {
    let mut book = Book::new(t, n);
    let x = book.get(0);
    if x == 7 {
        return Counted {
            answer: Ok(x),
            spent: 0,
        };
    }
    Counted {
        answer: Ok(x),
        spent: book.spent(),
    }
}

pub fn opens_on_one_way(t: &[u64], n: u64) -> Counted<u64> {
    if n == 7 {
        let mut book = Book::new(t, n);
        book.get(0);
    }
    Counted {
        answer: Ok(n),
        spent: 0,
    }
}

pub fn opens_and_copies_on_one_way(t: &[u64], n: u64) -> Counted<u64> {
    let mut book = Book::new(t, n);
    let x = book.get(0);
    let mut copy = 0;
    if x == 7 {
        copy = book.spent();
    }
    Counted {
        answer: Ok(x),
        spent: copy,
    }
}

pub fn opens_and_sets_a_copy(t: &[u64], n: u64) -> Counted<u64> {
    let mut book = Book::new(t, n);
    let x = book.get(0);
    let mut copy = book.spent();
    copy = 3;
    Counted {
        answer: Ok(x),
        spent: copy,
    }
}

pub fn opens_and_calls_for_a_copy(t: &[u64], n: u64) -> Counted<u64> {
    let mut book = Book::new(t, n);
    let x = book.get(0);
    let mut copy = book.spent();
    copy = counts_of(n);
    Counted {
        answer: Ok(x),
        spent: copy,
    }
}

pub fn opens_and_empties_a_copy(t: &[u64], n: u64) -> Counted<u64> {
    let mut book = Book::new(t, n);
    let x = book.get(0);
    let spent = book.spent();
    let mut copy = spent;
    set_to_nothing(&mut copy);
    Counted {
        answer: Ok(x),
        spent: copy,
    }
}

pub fn opens_and_tells_of_another(t: &[u64], n: u64, other: &mut Shown<'_>) -> Counted<u64> {
    let mut book = Book::new(t, n);
    let x = book.get(0);
    Counted {
        answer: Ok(x),
        spent: other.spent(),
    }
}

pub fn opens_and_tells_none_of_the_rounds(t: &[u64], n: u64) -> Counted<u64> {
    let mut book = Book::new(t, n);
    let mut all = 0;
    for i in 0..n {
        all ^= book.get(i as usize);
    }
    Counted {
        answer: Ok(all),
        spent: 0,
    }
}

pub fn opens_and_tells_of_before_the_rounds(t: &[u64], n: u64) -> Counted<u64> {
    let mut book = Book::new(t, n);
    let mut all = book.get(0);
    let before = book.spent();
    for i in 0..n {
        all ^= book.get(i as usize);
    }
    Counted {
        answer: Ok(all),
        spent: before,
    }
}

pub fn opens_and_leaves_a_round(t: &[u64], n: u64) -> Counted<u64> {
    let mut book = Book::new(t, n);
    for i in 0..n {
        let before = book.spent();
        if book.get(i as usize) == 7 {
            return Counted {
                answer: Ok(i),
                spent: before,
            };
        }
    }
    Counted {
        answer: Ok(n),
        spent: book.spent(),
    }
}

pub fn opens_through_another(t: &mut [u64], n: u64) -> Counted<u64> {
    let x = asks_once(t, n);
    Counted {
        answer: Ok(x),
        spent: 0,
    }
}

pub fn opens_by_itself(t: &[u64], n: u64) -> Counted<u64> {
    let mut book = Book::new(t, n);
    let x = book.get(0);
    if x == 0 {
        return Counted {
            answer: Ok(x),
            spent: book.spent(),
        };
    }
    let one = opens_by_itself(t, n / 2);
    Counted {
        answer: one.answer,
        spent: book.spent(),
    }
}

pub fn opens_two(t: &[u64], n: u64) -> Counted<u64> {
    let mut book = Book::new(t, n);
    let x = book.get(0);
    let mut other = Book::new(t, x);
    let y = other.get(1);
    Counted {
        answer: Ok(y),
        spent: book.spent(),
    }
}

pub fn opens_again(t: &[u64], n: u64) -> Counted<u64> {
    let mut book = Book::new(t, n);
    let x = book.get(0);
    book = Book::new(t, x);
    Counted {
        answer: Ok(x),
        spent: book.spent(),
    }
}

pub fn opens_each_round(t: &[u64], n: u64) -> Counted<u64> {
    let mut all = 0;
    for _i in 0..n {
        let mut book = Book::new(t, n);
        all ^= book.get(0);
    }
    Counted {
        answer: Ok(all),
        spent: 0,
    }
}

pub fn opens_around_another(t: &mut [u64], n: u64) -> Counted<u64> {
    let one = opens_rightly(t, n);
    let mut book = Book::new(t, n);
    Counted {
        answer: one.answer,
        spent: book.spent(),
    }
}

pub fn opens_another(t: &mut [u64], n: u64) -> Counted<u64> {
    opens_rightly(t, n)
}

#[derive(Clone, Copy)]
pub struct Boxed {
    pub counted: Counted<u64>,
    pub spent: u64,
}

pub fn opens_in_a_box(t: &[u64], n: u64) -> Boxed {
    let mut book = Book::new(t, n);
    let x = book.get(0);
    Boxed {
        counted: Counted::refused(x),
        spent: book.spent(),
    }
}

pub fn opens_and_swaps(t: &[u64], n: u64) -> Counted<u64> {
    let mut book = Book::new(t, n);
    let x = book.get(0);
    let other = mem::replace(&mut book, Book::new(t, n));
    Counted {
        answer: Ok(x),
        spent: book.spent(),
    }
}

pub fn opens_by_hand(t: &[u64], n: u64) -> Counted<u64> {
    let mut book = Book {
        cells: t,
        spent: 0,
        arena: n,
    };
    let x = book.get(0);
    Counted {
        answer: Ok(x),
        spent: book.spent(),
    }
}

pub fn opens_and_reads_its_count(t: &[u64], n: u64) -> Counted<u64> {
    let mut book = Book::new(t, n);
    let x = book.get(0);
    Counted {
        answer: Ok(x),
        spent: book.spent,
    }
}

pub fn opens_in_a_closure(t: &[u64], n: u64) -> Counted<u64> {
    let mut book = Book::new(t, n);
    let found = (0..n).find(|i| book.get(*i as usize) == 0);
    Counted {
        answer: found.ok_or(1),
        spent: book.spent(),
    }
}

#[derive(Drop)]
pub struct Fake {
    x: u64,
}

impl Cells for Fake {
    fn shown(&self) -> &[u64] {
        &[]
    }
}

pub fn opens_a_fake(t: &[u64], n: u64) -> Counted<u64> {
    let mut book = Book::new(Fake { x: n }, n);
    let x = book.get(0);
    Counted {
        answer: Ok(x),
        spent: book.spent(),
    }
}

// ---- functions that make a reply with no count

pub fn tells_five(n: u64) -> Counted<u64> {
    Counted {
        answer: Ok(n),
        spent: 5,
    }
}

pub fn tells_of_a_book(t: &[u64], n: u64) -> Counted<u64> {
    let book = Book::new(t, n);
    Counted::refused(1)
}

// ---- functions that are handed replies

pub fn adds_nothing_to(t: &mut [u64], n: u64) -> Counted<u64> {
    if n == 1 {
        return opens_rightly(t, n);
    }
    let counted = opens_rightly(t, 2);
    counted
}

pub fn adds_to_a_pair(t: &mut [u64], n: u64) -> (u64, u64) {
    if n == 0 {
        return (7, 0);
    }
    match n {
        1 => {
            let counted = opens_rightly(t, n);
            (counted.number(), counted.spent)
        }
        2 => adds_to_what_is_given(opens_rightly(t, n)),
        _ => adds_to_what_is_given(adds_nothing_to(t, n)),
    }
}

fn adds_to_what_is_given(counted: Counted<u64>) -> (u64, u64) {
    (counted.number(), counted.spent)
}

pub fn adds_rightly(t: &mut [u64], n: u64) -> Option<u64> {
    if n == 7 {
        return None;
    }
    let mut spent = 0;
    for i in 0..n {
        let counted = opens_rightly(t, i);
        set_to_nothing(&mut t[0]);
        spent += counted.spent;
    }
    Some(spent)
}

pub fn adds_pairs(t: &mut [u64], n: u64) -> Option<u64> {
    let mut all = 0;
    let mut last = 0;
    for i in 0..n {
        let (number, spent) = adds_to_a_pair(t, i);
        last = number;
        all += spent;
    }
    if last == 3 {
        let (_, spent) = adds_to_a_pair(t, n);
        all += spent;
    }
    Some(all)
}

pub fn adds_to_a_reply(t: &mut [u64], n: u64) -> Counted<u64> {
    let mut spent = 0;
    let counted = opens_rightly(t, n);
    spent += counted.spent;
    Counted {
        answer: counted.answer,
        spent,
    }
}

pub fn adds_by_itself(t: &mut [u64], n: u64) -> Counted<u64> {
    let mut spent = 0;
    let one = opens_rightly(t, n);
    spent += one.spent;
    if 0 < n {
        let rest = adds_by_itself(t, n / 2);
        spent += rest.spent;
    }
    Counted {
        answer: one.answer,
        spent,
    }
}

pub fn adds_by_itself_for_nothing(t: &mut [u64], n: u64) -> Counted<u64> {
    let mut spent = 0;
    let one = opens_rightly(t, n);
    spent += one.spent;
    if 0 < n {
        adds_by_itself_for_nothing(t, n / 2);
    }
    Counted {
        answer: one.answer,
        spent,
    }
}

pub fn adds_to_a_pair_of_none(t: &mut [u64], n: u64) -> (u64, u64) {
    let counted = opens_rightly(t, n);
    (counted.number(), 0)
}

pub fn adds_to_a_pair_of_numbers(t: &mut [u64], n: u64) -> (u64, u64) {
    let counted = opens_rightly(t, n);
    (counted.spent, counted.number())
}

pub fn adds_to_a_pair_the_first(t: &mut [u64], n: u64) -> (u64, u64) {
    let one = opens_rightly(t, n);
    let two = opens_rightly(t, n);
    (two.number(), one.spent)
}

fn adds_nothing_to_what_is_given(counted: Counted<u64>) -> (u64, u64) {
    (counted.number(), 0)
}

pub fn adds_to_what_is_made(t: &mut [u64], n: u64) -> (u64, u64) {
    let counted = opens_rightly(t, n);
    adds_to_what_is_given(Counted {
        answer: counted.answer,
        spent: 0,
    })
}

pub fn adds_what_is_given_once(t: &mut [u64], n: u64) -> Option<u64> {
    let mut spent = 0;
    let counted = opens_rightly(t, n);
    let one = adds_to_what_is_given(counted);
    let two = adds_to_what_is_given(counted);
    spent += one.1;
    Some(spent)
}

pub fn adds_and_then_none(t: &mut [u64], n: u64) -> Option<u64> {
    let mut spent = 0;
    let counted = opens_rightly(t, n);
    spent += counted.spent;
    if counted.number() == 7 {
        return None;
    }
    Some(spent)
}

pub fn adds_to_an_option_of_an_option(t: &mut [u64], n: u64) -> Option<u64> {
    adds_rightly(t, n)
}

pub fn adds_no_sum(t: &mut [u64], n: u64) -> Counted<u64> {
    let one = adds_to_a_reply(t, n);
    Counted {
        answer: one.answer,
        spent: 0,
    }
}

pub fn adds_no_box(t: &mut [u64], n: u64) -> Counted<u64> {
    let one = opens_in_a_box(t, n);
    Counted {
        answer: one.counted.answer,
        spent: 0,
    }
}

pub fn adds_through_another(t: &mut [u64], n: u64) -> Counted<u64> {
    let x = asks_once(t, n);
    Counted {
        answer: Ok(x),
        spent: 0,
    }
}

pub fn adds_and_returns_none(t: &mut [u64], n: u64) -> u64 {
    let mut spent = 0;
    let one = opens_rightly(t, n);
    spent += one.spent;
    one.number()
}

pub fn adds_and_leaves_a_round(t: &mut [u64], n: u64) -> Option<u64> {
    let mut spent = 0;
    for i in 0..n {
        let one = opens_rightly(t, i);
        if one.number() == 7 {
            return Some(spent);
        }
        spent += one.spent;
    }
    Some(spent)
}

pub fn adds_not_all_rounds(t: &mut [u64], n: u64) -> Option<u64> {
    let mut spent = 0;
    for i in 0..n {
        let one = opens_rightly(t, i);
        if one.number() == 7 {
            continue;
        }
        spent += one.spent;
    }
    Some(spent)
}

pub fn adds_what_may_be_none(t: &mut [u64], n: u64) -> Option<u64> {
    let mut spent = 0;
    let mut one = Counted {
        answer: Ok(0),
        spent: 100,
    };
    if n == 7 {
        one = opens_rightly(t, n);
    }
    spent += one.spent;
    Some(spent)
}

pub fn adds_nothing_for_one(t: &mut [u64], n: u64) -> Option<u64> {
    let mut spent = 0;
    let mut one = opens_rightly(t, n);
    one.spent = 0;
    spent += one.spent;
    Some(spent)
}

pub fn adds_two_for_one(t: &mut [u64], n: u64) -> Option<u64> {
    let mut spent = 0;
    let mut one = opens_rightly(t, n);
    let two = opens_rightly(t, n);
    one = two;
    spent += one.spent;
    spent += two.spent;
    Some(spent)
}

pub fn adds_over_one(t: &mut [u64], n: u64) -> Option<u64> {
    let mut spent = 0;
    let mut one = opens_rightly(t, n);
    one = opens_rightly(t, n);
    spent += one.spent;
    Some(spent)
}

pub fn counts_of(n: u64) -> u64 {
    n
}

pub fn adds_what_a_call_says(t: &mut [u64], n: u64) -> Option<u64> {
    let mut spent = 0;
    let one = opens_rightly(t, n);
    spent += one.spent;
    spent = counts_of(spent);
    Some(spent)
}

pub fn adds_and_lends_its_sum(t: &mut [u64], n: u64) -> Option<u64> {
    let mut spent = 0;
    let one = opens_rightly(t, n);
    spent += one.spent;
    set_to_nothing(&mut spent);
    Some(spent)
}

pub fn adds_and_empties_a_copy(t: &mut [u64], n: u64) -> Option<u64> {
    let mut spent = 0;
    let one = opens_rightly(t, n);
    spent += one.spent;
    let mut copy = spent;
    set_to_nothing(&mut copy);
    Some(copy)
}

pub fn adds_and_lends_a_reply(t: &mut [u64], n: u64) -> Option<u64> {
    let mut spent = 0;
    let mut one = opens_rightly(t, n);
    one.set_to_nothing();
    spent += one.spent;
    Some(spent)
}

pub fn adds_no_more(t: &mut [u64], n: u64) -> Option<u64> {
    let mut spent = 0;
    for i in 0..n {
        let one = opens_rightly(t, i);
        spent += one.spent;
        let two = opens_rightly(t, i);
    }
    Some(spent)
}

pub fn adds_some(t: &mut [u64], n: u64) -> Option<u64> {
    let mut spent = 0;
    let one = opens_rightly(t, n);
    if one.number() == 3 {
        spent += one.spent;
    }
    Some(spent)
}

pub fn adds_the_first_twice(t: &mut [u64], n: u64) -> Option<u64> {
    let mut spent = 0;
    let one = opens_rightly(t, n);
    spent += one.spent;
    let two = opens_rightly(t, n);
    spent += one.spent;
    Some(spent)
}

pub fn adds_from_a_number(t: &mut [u64], n: u64) -> Option<u64> {
    let mut spent = n;
    let one = opens_rightly(t, n);
    spent += one.spent;
    Some(spent)
}

pub fn adds_again(t: &mut [u64], n: u64) -> Option<u64> {
    let mut spent = 0;
    let one = opens_rightly(t, n);
    spent += one.spent;
    spent = 0;
    Some(spent)
}

pub fn adds_and_tells_none(t: &mut [u64], n: u64) -> Option<u64> {
    let mut spent = 0;
    let one = opens_rightly(t, n);
    spent += one.spent;
    Some(0)
}

pub fn adds_two_sums(t: &mut [u64], n: u64) -> Option<u64> {
    let mut spent = 0;
    let mut other = 0;
    let one = opens_rightly(t, n);
    spent += one.spent;
    let two = opens_rightly(t, n);
    other += two.spent;
    Some(spent)
}

pub fn adds_after_one(t: &mut [u64], n: u64) -> Counted<u64> {
    let one = opens_rightly(t, n);
    opens_rightly(t, one.number())
}

pub fn adds_after_a_pair(t: &mut [u64], n: u64) -> (u64, u64) {
    let one = opens_rightly(t, n);
    let pair = (one.number(), one.spent);
    adds_to_what_is_given(opens_rightly(t, pair.0))
}

pub fn adds_after_one_way(t: &mut [u64], n: u64) -> (u64, u64) {
    let one = if n == 0 {
        (7, 0)
    } else {
        adds_to_what_is_given(opens_rightly(t, n))
    };
    if one.0 == 3 {
        return adds_to_what_is_given(opens_rightly(t, n));
    }
    one
}

pub fn adds_into_a_part(t: &mut [u64], n: u64) -> (u64, u64) {
    let mut pair = (Counted::refused(1), n);
    pair.0 = opens_rightly(t, n);
    (pair.1, 0)
}

pub fn adds_the_first_again(t: &mut [u64], n: u64) -> Option<u64> {
    let mut spent = 0;
    let mut one = opens_rightly(t, n);
    let first = one.spent;
    spent += first;
    one = opens_rightly(t, n);
    spent += first;
    Some(spent)
}

pub fn adds_the_one_before(t: &mut [u64], n: u64) -> Option<u64> {
    let mut spent = 0;
    let mut one = opens_rightly(t, n);
    spent += one.spent;
    let before = one;
    one = opens_rightly(t, n);
    spent += before.spent;
    Some(spent)
}

pub fn adds_to_a_refusal(n: u64) -> Counted<u64> {
    let mut counted = Counted::refused(1);
    counted = Counted::refused(n);
    counted.set_to(5);
    counted
}

fn adds_none_to_what_is_given(mut counted: Counted<u64>) -> (u64, u64) {
    counted.set_to_nothing();
    (counted.number(), counted.spent)
}

pub fn adds_and_serves(t: &mut [u64], n: u64) -> Served {
    if n == 7 {
        return Served {
            answer: Err(NotServed),
            spent: 0,
        };
    }
    let mut spent = 0;
    for i in 0..n {
        let (number, accesses) = adds_to_a_pair(t, i);
        set_to_nothing(&mut t[0]);
        spent += accesses;
    }
    Served {
        answer: Ok(()),
        spent,
    }
}

pub fn adds_and_serves_for_nothing(t: &mut [u64], n: u64) -> Served {
    let mut spent = 0;
    for i in 0..n {
        let (number, accesses) = adds_to_a_pair(t, i);
        spent += accesses;
    }
    Served {
        answer: Ok(()),
        spent: 0,
    }
}

pub fn adds_and_serves_no_more(t: &mut [u64], n: u64) -> Served {
    let mut spent = 0;
    let (number, accesses) = adds_to_a_pair(t, n);
    spent += accesses;
    if number == 7 {
        return Served {
            answer: Err(NotServed),
            spent: 0,
        };
    }
    Served {
        answer: Ok(()),
        spent,
    }
}

pub fn adds_and_serves_the_last(t: &mut [u64], n: u64) -> Served {
    let mut spent = 0;
    let mut last = 0;
    for i in 0..n {
        let (number, accesses) = adds_to_a_pair(t, i);
        spent += accesses;
        last = accesses;
    }
    Served {
        answer: Ok(()),
        spent: last,
    }
}

pub fn adds_in_a_closure(t: &mut [u64], n: u64) -> Option<u64> {
    (0..n).find(|i| opens_rightly(t, *i).spent == 7)
}

// ---- functions that ask

pub fn asks_once(t: &mut [u64], n: u64) -> u64 {
    if n < 3 {
        return 0;
    }
    opens_rightly(t, n).number()
}

pub fn asks_twice(t: &mut [u64], n: u64) -> u64 {
    let one = opens_rightly(t, n);
    let two = opens_rightly(t, one.number());
    two.number()
}

pub fn asks_each_round(t: &mut [u64], n: u64) -> u64 {
    let mut all = 0;
    for i in 0..n {
        all ^= opens_rightly(t, i).number();
    }
    all
}

pub fn asks_once_through_another(t: &mut [u64], n: u64) -> u64 {
    asks_once(t, n) ^ counts_of(n)
}

pub fn asks_twice_through_another(t: &mut [u64], n: u64) -> u64 {
    let x = asks_once(t, n);
    asks_once(t, x)
}

pub fn asks_each_round_through_another(t: &mut [u64], n: u64) -> u64 {
    let mut all = 0;
    for i in 0..n {
        all ^= asks_once_through_another(t, i);
    }
    all
}

fn asks_of(t: &mut [u64]) -> u64 {
    opens_rightly(t, 3).number()
}

pub fn asks_by_a_value(t: Option<&mut [u64]>) -> Option<u64> {
    t.map(asks_of)
}

pub fn asks_by_a_pointer(n: u64) -> u64 {
    let f: fn(u64) -> u64 = counts_of;
    f(n)
}

pub fn asks_by_itself(t: &mut [u64], n: u64) -> u64 {
    if n == 0 {
        return 0;
    }
    let one = opens_rightly(t, n);
    asks_by_itself(t, n / 2) ^ one.number()
}

pub fn asks_for_a_sum(t: &mut [u64], n: u64) -> bool {
    adds_rightly(t, n).is_some()
}

pub fn asks_and_hands_it_on(t: &mut [u64], n: u64) -> Counted<u64> {
    opens_rightly(t, n)
}

pub fn asks_a_book(book: &mut Shown<'_>) -> u64 {
    book.arena
}

pub fn free_to_ask(t: &mut [u64], n: u64) -> bool {
    let one = opens_rightly(t, n);
    adds_rightly(t, one.number()).is_some()
}

pub fn free_and_hands_it_on(t: &mut [u64], n: u64) -> Counted<u64> {
    opens_rightly(t, n)
}

pub fn helps(t: &mut [u64], n: u64) -> u64 {
    asks_once(t, n)
}

// ---- calls that do not name a function

pub trait Other {
    fn tell(&self, n: u64) -> u64;
    fn add(&self, spent: &mut u64);
    fn lend(&self, lender: Lender<'_>);
    fn hold(&self, book: &mut Shown<'_>);
}

pub fn free_and_calls_through_a_bound<T: Other>(other: &T, n: u64) -> u64 {
    other.tell(n)
}

pub fn host_that_calls_through_a_bound<T: Other>(other: &T, n: u64) -> u64 {
    other.tell(n)
}

pub fn host_that_calls_a_closure<F: Fn(u64) -> u64>(f: F, n: u64) -> u64 {
    f(n)
}

pub fn host_that_hands_it_on(t: &mut [u64], n: u64) -> Counted<u64> {
    opens_rightly(t, n)
}

pub fn host_that_lends_a_count_through_a_bound<T: Other>(other: &T, n: u64) -> u64 {
    let mut spent = n;
    other.add(&mut spent);
    spent
}

pub fn host_that_lends_a_struct_with_a_count<T: Other>(other: &T, lender: Lender<'_>) {
    other.lend(lender);
}

pub fn host_that_has_a_book<T: Other>(other: &T, t: &[u64]) {
    let mut book = Book::new(t, 1);
    other.hold(&mut book);
}

pub fn counts_through_a_bound<T: Other>(other: &T, book: &mut Shown<'_>) {
    other.hold(book);
}

pub fn opens_and_calls_through_a_bound<T: Other>(other: &T, t: &[u64], n: u64) -> Counted<u64> {
    let mut book = Book::new(t, n);
    let x = other.tell(n);
    Counted {
        answer: Ok(x),
        spent: book.spent(),
    }
}

pub fn asks_through_a_bound<T: Other>(other: &T, n: u64) -> u64 {
    other.tell(n)
}

pub fn counts_with_a_closure<F: Fn(u64) -> u64>(f: F, book: &mut Shown<'_>) -> u64 {
    f(book.get(0))
}
"""
# the functions of the example that are wrong, each with what is to be said of it
FAULTS = {
    "Loose::address": "hands out its count itself",
    "Loose::begin": "makes a book by itself",
    "Loose::beside": "calls a function that counts, and does not count itself",
    "Loose::count": "calls sample::counts_one, which is not for it",
    "Loose::empty": "does something else with a count than lend it",
    "Loose::get": "lends sample::counts_get another count than its own",
    "Loose::in_a_pair": "calls a function that counts, and does not count itself",
    "Loose::lend": "lends a count to a function that the call does not name",
    "Loose::new": "is not what `new` of a book is",
    "Loose::peek": "calls a function that the call does not name",
    "Loose::reset": "changes a book",
    "Loose::spent": "is not what `spent` of a book is",
    "Loose::take_over": "takes or sets a book as a whole",
    "Loose+mut+slice+u64::over": "is not what `over` of a book is",
    "Loose+mut+slice+u64::put": "lends sample::counts_get_and_set another count than its own",
    "counts_a_number_back": "looks at its count or changes it",
    "counts_and_becomes": "takes or sets a book as a whole",
    "counts_and_hands_it_out": "hands out a book",
    "counts_and_hands_its_number_out": "hands out its count itself",
    "counts_and_hands_out_a_reply": "returns a reply with its count, and neither opens a count nor adds counts up",
    "counts_and_lends_in_a_struct": "does something else with a count than lend it",
    "counts_and_lends_it_elsewhere": "does something else with a count than lend it",
    "counts_and_lends_to_any": "lends a book to sample::taken_for_any",
    "counts_and_swaps": "lends a book to std::mem::swap",
    "counts_apart": "calls sample::opens_rightly, which counts apart",
    "counts_back": "changes a book",
    "counts_by_its_count": "calls sample::Book::spent, which is not for it",
    "counts_by_its_number": "looks at its count or changes it",
    "counts_first": "has another `&mut u64` than its last parameter",
    "counts_get_for_nothing": "does not call sample::counts_one once and nothing else",
    "counts_get_for_two": "does not call sample::counts_one once and nothing else",
    "counts_in_a_closure": "has a book inside something else",
    "counts_in_a_pair": "has a book inside something else",
    "counts_in_a_struct": "has a book inside something else",
    "counts_in_an_option": "has a book inside something else",
    "counts_in_another_arena": "changes a book",
    "counts_its_cells": "reaches into a book",
    "counts_not": "calls a function that counts, and does not count itself",
    "counts_on_another": "has a book of its own",
    "counts_on_another_number": "lends sample::counts_get another count than its own",
    "counts_on_its_own": "reaches into a book",
    "counts_on_what_is_given": "has a book of its own",
    "counts_through_a_bound": "lends a book to a function that the call does not name",
    "counts_two": "is lent more than one book",
    "counts_two_at_once": "looks at its count or changes it",
    "counts_two_numbers": "has another `&mut u64` than its last parameter",
    "counts_with_a_closure": "calls a function that the call does not name",
    "counts_without_access": "calls sample::counts_one, which is not for it",
    "opens_a_fake": "makes a book of something else than a slice of u64",
    "opens_again": "does not make one book",
    "opens_and_calls_for_a_copy": "hands out something else than its book's count",
    "opens_and_calls_through_a_bound": "calls a function that the call does not name",
    "opens_and_copies_on_one_way": "hands out something else than its book's count",
    "opens_and_empties_a_copy": "hands out something else than its book's count",
    "opens_and_leaves_a_round": "has a loop",
    "opens_and_lends_what_it_tells": "hands out something else than its book's count",
    "opens_and_reads_its_count": "reaches into a book",
    "opens_and_sets_a_copy": "hands out something else than its book's count",
    "opens_and_sets_its_reply": "hands out something else than its book's count",
    "opens_and_sets_what_it_tells": "hands out something else than its book's count",
    "opens_and_swaps": "lends a book to std::mem::replace",
    "opens_and_tells_early": "names its book after it has read the count",
    "opens_and_tells_half": "hands out something else than its book's count",
    "opens_and_tells_none": "hands out something else than its book's count",
    "opens_and_tells_none_of_the_rounds": "has a loop",
    "opens_and_tells_none_once": "hands out something else than its book's count",
    "opens_and_tells_of_another": "is lent a book",
    "opens_and_tells_of_before_the_rounds": "has a loop",
    "opens_and_then_refuses": "hands out something else than its book's count",
    "opens_another": "calls sample::opens_rightly, which counts apart",
    "opens_around_another": "calls sample::opens_rightly, which counts apart",
    "opens_by_hand": "makes a book by itself",
    "opens_by_itself": "calls sample::opens_by_itself, which counts apart",
    "opens_each_round": "has a loop",
    "opens_in_a_box": "hands out no reply with its count",
    "opens_in_a_closure": "has a book inside something else",
    "opens_nothing": "does not make one book",
    "opens_nothing_and_tells_five": "hands out something else than its book's count",
    "opens_on_one_way": "hands out something else than its book's count",
    "opens_through_another": "calls sample::asks_once, which counts apart",
    "opens_two": "does not make one book",
    "tells_five": "hands out something else than its book's count",
    "tells_of_a_book": "calls sample::Book::new, which is not for it",
    "adds_by_itself_for_nothing": "adds a count on one way only",
    "adds_after_a_pair": "calls sample::opens_rightly before its sum is set to 0",
    "adds_after_one": "calls sample::opens_rightly before its sum is set to 0",
    "adds_after_one_way": "calls sample::opens_rightly before its sum is set to 0",
    "adds_again": "changes its sum",
    "adds_and_serves_for_nothing": "returns something else than its count",
    "adds_and_serves_no_more": "returns something else than its count",
    "adds_and_serves_the_last": "returns something else than its count",
    "adds_and_empties_a_copy": "returns something else than its count",
    "adds_and_leaves_a_round": "returns without adding a count",
    "adds_and_lends_a_reply": "returns without adding a count",
    "adds_and_lends_its_sum": "returns without adding a count",
    "adds_and_returns_none": "returns something else than its count",
    "adds_and_tells_none": "returns something else than its count",
    "adds_and_then_none": "returns something else than its count",
    "adds_from_a_number": "changes its sum",
    "adds_in_a_closure": "hands on sample::fn::adds_in_a_closure::find+FnMut::call_mut, which makes a request",
    "adds_into_a_part": "returns without adding a count",
    "adds_no_box": "calls sample::opens_in_a_box, which counts apart",
    "adds_no_more": "goes on without adding a count",
    "adds_no_sum": "returns something else than its count",
    "adds_none_to_what_is_given": "returns without adding a count",
    "adds_not_all_rounds": "goes on without adding a count",
    "adds_nothing_for_one": "changes a reply whose count is to be added",
    "adds_nothing_to_what_is_given": "returns without adding a count",
    "adds_over_one": "loses a count at the call of sample::opens_rightly",
    "adds_some": "adds a count on one way only",
    "adds_the_first_twice": "changes its sum",
    "adds_the_first_again": "changes its sum",
    "adds_the_one_before": "changes its sum",
    "adds_through_another": "calls sample::asks_once, which counts apart",
    "adds_to_a_pair_of_none": "returns without adding a count",
    "adds_to_a_pair_of_numbers": "returns without adding a count",
    "adds_to_a_pair_the_first": "returns without adding a count",
    "adds_to_a_refusal": "returns something else than its count",
    "adds_to_an_option_of_an_option": "calls sample::adds_rightly, which counts apart",
    "adds_to_what_is_made": "returns without adding a count",
    "adds_two_for_one": "changes a reply whose count is to be added",
    "adds_two_sums": "has more than one sum",
    "adds_what_a_call_says": "loses a count at the call of sample::counts_of",
    "adds_what_may_be_none": "adds a count on one way only",
    "asks_by_itself": "makes more than one request",
    "asks_a_book": "has a book, and does not count",
    "asks_and_hands_it_on": "returns a reply with its count, and neither opens a count nor adds counts up",
    "asks_by_a_pointer": "takes the address of a function",
    "asks_by_a_value": "hands on sample::sample++asks_of+FnOnce::call_once, which makes a request",
    "asks_each_round": "makes more than one request",
    "asks_each_round_through_another": "makes more than one request",
    "asks_for_a_sum": "makes more than one request",
    "asks_through_a_bound": "calls a function that the call does not name",
    "asks_twice": "makes more than one request",
    "asks_twice_through_another": "makes more than one request",
    "sample++asks_of+FnOnce::call_once": "counts, and plays no part that is known",
    "free_and_calls_through_a_bound": "calls a function that the call does not name",
    "free_and_hands_it_on": "returns a reply with its count, and neither opens a count nor adds counts up",
    "helps": "counts, and plays no part that is known",
    "Other::hold": "has a book, and does not count",
    "host_that_hands_it_on": "returns a reply with its count, and neither opens a count nor adds counts up",
    "host_that_has_a_book": "has a book, and does not count",
    "host_that_lends_a_count_through_a_bound": "lends a count to a function that the call does not name",
    "host_that_lends_a_struct_with_a_count": "lends a count to a function that the call does not name",
    "fn::adds_in_a_closure::find": "returns without adding a count",
    "fn::adds_in_a_closure::find+FnMut::call_mut": "calls sample::fn::adds_in_a_closure::find, which counts apart",
    "fn::adds_in_a_closure::find+FnOnce::call_once": "calls sample::fn::adds_in_a_closure::find, which counts apart",
    "fn::counts_in_a_closure::find": "has a book inside something else",
    "fn::counts_in_a_closure::find+FnMut::call_mut": "has a book inside something else",
    "fn::counts_in_a_closure::find+FnOnce::call_once": "has a book inside something else",
    "fn::opens_in_a_closure::find": "has a book inside something else",
    "fn::opens_in_a_closure::find+FnMut::call_mut": "has a book inside something else",
    "fn::opens_in_a_closure::find+FnOnce::call_once": "has a book inside something else",
}


def lent_type(kind):
    """The type behind a reference."""
    return kind[-1] if isinstance(kind, list) and kind[0] == "tyRef" else None


def type_name(kind):
    """The name of a type that is declared."""
    return kind[1][1].strip('"') if isinstance(kind, list) and kind[0] == "tyNamed" else None


def same_type(a, b):
    """Whether two types are the same but for their lifetimes."""
    return a == b or type_name(a) == type_name(b) is not None and len(given_types(a)) == len(given_types(b)) and all(map(same_type, given_types(a), given_types(b)))


def plain(body):
    """Whether a function's code has no branch and no loop."""
    return not any(node[0] in ("if", "switch", "block", "loop") for node in walk(body[5]))


def maker_of(name):
    """The type whose function this is, and the function's own name."""
    words = name.split("::")
    return "::".join(words[:-1]).split("+")[0], words[-1]


def is_count(kind):
    """A `&mut u64`."""
    return isinstance(kind, list) and kind[0] == "tyRef" and kind[2:] == ["mut", ["tyInt", "64"]]


def counts(body):
    """Whether a function has a `&mut u64` among its parameters."""
    return any(is_count(kinds(body)[int(number)]) for number in parameters(body))


def lends(body, counting, count, steps):
    """Faults in how a function lends a count, which is the place with these steps from a local, and how often it names the local in doing so."""
    taken = [where for where, value in assigns(body) if value[0] == "addrOf" and said(value[1]) == (count, steps)]
    made = [where[1] for where in taken if where[2] == "lnil"]
    given = []
    wrong = []
    for name, arguments, _ in calls(body):
        if name in counting:
            given.append(local_of(arguments[-1]))
            if given[-1] not in made and (given[-1] != count or steps != ["deref"]):
                wrong.append(f"lends {name} another count than its own")
    uses = [place[1] for place in named(body[5])]
    wrong += [f"does something else with a count than lend it (local {one})" for one in sorted(set(made)) if uses.count(one) != made.count(one) + given.count(one)]
    wrong += ["hands out its count itself"] if "0" in made or len(made) < len(taken) else []
    return wrong, len(made) + given.count(count)


def passing_faults(body, counting):
    """What a function that counts does with its count other than lend it on."""
    own = [number for number in parameters(body) if is_count(kinds(body)[int(number)])]
    if own != parameters(body)[-1:]:
        return ["has another `&mut u64` than its last parameter"]
    wrong, uses = lends(body, counting, own[0], ["deref"])
    return wrong + (["looks at its count or changes it"] if [place[1] for place in named(body[5])].count(own[0]) != uses else [])


def holding_faults(body, counting):
    """What a function of a book does with the book's count other than lend it on."""
    wrong, uses = lends(body, counting, "1", ["deref", "field 1"])
    return wrong + (["looks at its count or changes it"] if sum(said(place)[1][:2] == ["deref", "field 1"] for place in named(body[5])) != uses else [])


def has_count(body, operand):
    """Whether the type of what is lent has a `&mut u64` in it, also behind the names of types."""
    shapes = {one[1]: one[2] for one in items(body[6])}
    place = place_of(operand)
    ahead = kinds_along(body, place) if place else []
    while ahead:
        for node in walk(ahead.pop()):
            if is_count(node):
                return True
            if node[:1] == ["tyNamed"] and node[1][1] in shapes:
                ahead.append(shapes.pop(node[1][1]))
    return False


class Program:
    """A program and the names that the rules speak of."""

    def __init__(self, bodies, part_of, counter, accesses, books, replies, unnamed):
        self.bodies = bodies
        self.part_of = part_of        # the part that each function plays, of PARTS where it counts
        self.counter = counter        # the function that looks behind a count
        self.accesses = accesses      # the functions that make an access each
        self.books = books            # the types that have a count as their second field
        self.replies = replies        # the structs that have a count as their second field
        self.unnamed = unnamed        # the functions that may call one that the call does not name
        self.making = {name for name in bodies if maker_of(name)[0] in books and maker_of(name)[1] in ("new", "over")}
        self.counting = {name for name, body in bodies.items() if part_of(name) == "counts" and counts(body)}
        self.hidden = self.apart()
        self.taking = {name for name, body in bodies.items() if part_of(name) == "adds" and any(self.is_reply(kinds(body)[int(one)]) for one in parameters(body))}
        self.replying = {name for name in bodies if self.replies_from(name)}

    def is_held(self, kind):
        """A book."""
        return type_name(kind) in self.books

    def is_lent(self, kind):
        """A reference to a book."""
        return self.is_held(lent_type(kind))

    def is_either(self, kind):
        """A book, or a reference to one."""
        return self.is_held(kind) or self.is_lent(kind)

    def is_of_a_book(self, name):
        """Whether a function is one of a book, which it is lent first."""
        return maker_of(name)[0] in self.books and any(self.is_lent(kinds(self.bodies[name])[int(one)]) for one in parameters(self.bodies[name])[:1])

    def is_reply(self, kind):
        """A reply with its count."""
        return type_name(kind) in self.replies

    def apart(self):
        """The functions that make a book, by themselves or by those that they call."""
        reach = {name: {one for one, _, _ in calls(body)} | handed(body, self.bodies) for name, body in self.bodies.items()}
        found = set(self.making)
        size = 0
        while size < len(found):
            size = len(found)
            found |= {name for name, ones in reach.items() if found & ones}
        return found - self.making

    def replies_from(self, name):
        """Whether a function hands out a reply with its count, as a struct or as a pair."""
        kind = kinds(self.bodies[name])[0]
        return self.part_of(name) in HANDING and (self.is_reply(kind) or type_name(kind) == "(,)" and name in self.hidden | self.taking)

    def may_call(self, name, called):
        """Whether a function may call one that has to do with a count; all others may be called."""
        kind, verb = maker_of(called)
        if called == self.counter:
            return name in self.accesses
        if kind not in self.books or verb not in EXACT or self.part_of(name) == "opens":
            return True
        return verb == "new" and maker_of(name) == (kind, "over")

    def exact_faults(self, name):
        """What is wrong in a function that counts one, makes an access, makes a book or tells its count; nothing of another function."""
        body = self.bodies[name]
        kind, verb = maker_of(name)
        called = [one for one, _, _ in calls(body)]
        values = [(where, value) for where, value in assigns(body) if value != ["rvOpd", "unit"]]
        if name == self.counter:
            return [] if plain(body) and not called and adds_one(values) else ["does not add one to its count, and nothing else"]
        if name in self.accesses:
            return [] if plain(body) and called == [self.counter] else [f"does not call {self.counter} once and nothing else"]
        if kind not in self.books or verb not in EXACT:
            return []
        if verb == "new":
            fields = items(values[-1][1][1]) if values and values[-1][1][0] == "aggregate" and values[-1][0] == ["place", "0", "lnil"] else []
            right = not called and len(fields) > 1 and fields[1] == NONE and all(value[0] == "rvOpd" for _, value in values[:-1])
        elif verb == "over":
            right = [(maker_of(one), where) for one, _, where in calls(body)] == [((kind, "new"), ["place", "0", "lnil"])]
        else:
            right = not called and len(values) == 1 and values[0][1][0] == "rvOpd" and said(place_of(values[0][1][1])) == ("1", ["deref", "field 1"])
        return [] if plain(body) and right else [f"is not what `{verb}` of a book is"]

    # ---- what is done with books

    def handling_faults(self, name):
        """What a function does with a book other than lend it on."""
        body = self.bodies[name]
        kind, verb = maker_of(name)
        part = self.part_of(name)
        all_kinds = kinds(body)
        exact = kind in self.books and verb in EXACT
        wrong = []
        tops = {id(one) for one in all_kinds} | {id(lent_type(one)) for one in all_kinds}
        if any(self.is_held(node) and id(node) not in tops for node in walk([body[4], body[6]])):
            wrong.append("has a book inside something else")
        if not any(map(self.is_either, all_kinds)):
            return wrong
        if part not in ("counts", "opens"):
            wrong.append("has a book, and does not count")
        if any(map(self.is_held, all_kinds)) and part != "opens" and not exact:
            wrong.append("has a book of its own")
        if sum(self.is_either(all_kinds[int(number)]) for number in parameters(body)) > 1:
            wrong.append("is lent more than one book")
        if self.is_either(all_kinds[0]) and not exact:
            wrong.append("hands out a book")
        wrong += [f"lends a book to {one}" for one in strayed(body, self.bodies, self.is_either)]
        if kind in self.books and not exact:
            wrong += holding_faults(body, self.counting)
        return wrong + ([] if exact else self.place_faults(body, kind in self.books))

    def place_faults(self, body, is_own):
        """Where a book is named otherwise than to be lent, or for its arena, or, in a function of its own, for its cells and its count."""
        wrong = []
        all_kinds = kinds(body)
        lent = {id(value[1]): where for where, value in assigns(body) if value[0] == "addrOf"}
        for place in named(body[5]):
            kind, steps = all_kinds[int(place[1])], said(place)[1]
            if not self.is_either(kind):
                continue
            behind = steps[1:] if self.is_lent(kind) else steps
            whole_lent = id(place) in lent and self.is_lent(all_kinds[int(lent[id(place)][1])]) and lent[id(place)][2] == "lnil"
            if behind and behind[0] in ("field 0", "field 1") and not is_own:
                wrong.append("reaches into a book")
            elif not behind and (steps or id(place) in lent) and not whole_lent:
                wrong.append("takes or sets a book as a whole")
        for node in walk(body[5]):
            if node[0] in ("assign", "call") and len(node) > 2:
                where = target(node)
                if self.is_either(all_kinds[int(where[1])]) and where[2] != "lnil":
                    wrong.append("changes a book")
                if node[0] == "assign" and where[2] == "lnil" and self.is_held(all_kinds[int(where[1])]) and (
                        node[2][0] != "rvOpd" or local_of(node[2][1]) is None):
                    wrong.append("makes a book by itself")
        return wrong

    # ---- a request

    def opening_faults(self, name):
        """Faults of a request, or of another function that hands out a reply and makes no book."""
        body = self.bodies[name]
        found = ways(body[5])
        wrong = [] if self.is_reply(kinds(body)[0]) else ["hands out no reply with its count"]
        if any(self.is_either(kinds(body)[int(number)]) for number in parameters(body)):
            wrong.append("is lent a book")
        if found is None:
            return wrong + ["has a loop"]
        made = [one for way in found for one in way if one[0] == "call" and callee(one) in self.making]
        if self.part_of(name) == "opens" and len({id(one) for one in made}) != 1:
            wrong.append("does not make one book")
        wrong += [fault for way in found for fault in self.way_faults(body, way)]
        if any(self.is_held(kind) and not all(map(is_table, given_types(kind))) for kind in kinds(body)):
            wrong.append("makes a book of something else than a slice of u64")
        return wrong

    def way_faults(self, body, way):
        """Faults of one way through a request."""
        if way[-1:] != ["return"]:
            return ["ends without a return"]
        made = [at for at, one in enumerate(way) if one[0] == "call" and callee(one) in self.making]
        told = setter(body, way, len(way), "0")
        reply = way[told] if told is not None else ["none"]
        if not made and reply[0] == "call" and callee(reply) in self.replying - self.hidden:
            return []
        fields = items(reply[2][1]) if reply[0] == "assign" and reply[2][0] == "aggregate" else []
        if len(fields) != 2 or not self.is_reply(kinds(body)[int(target(reply)[1])]):
            return ["hands out something else than its book's count"]
        if not made:
            return [] if fields[1] == NONE else ["hands out something else than its book's count"]
        read = setter(body, way, told, local_of(fields[1]))
        if read is None or way[read][0] != "call" or maker_of(callee(way[read]) or "")[1] != "spent" or maker_of(callee(way[read]))[0] not in self.books or read < made[-1]:
            return ["hands out something else than its book's count"]
        later = [place for one in way[read + 1:] for place in named(one) if self.is_either(kinds(body)[int(place[1])])]
        return ["names its book after it has read the count"] if later else []


def adds_one(values):
    """Whether the assignments of a function add one to what its parameter refers to."""
    if len(values) != 3:
        return False
    (a, read), (b, more), (into, told) = values
    return (read[0] == told[0] == "rvOpd" and said(place_of(read[1])) == said(into) == ("1", ["deref"])
            and more == ["op2", ["add", "unsigned"], ["copy", a], ["int", "64", "1"]] and told[1] == ["copy", b])


def said(place):
    """A place's local and its steps in words."""
    return place and (place[1], [step[0] if step[0] == "deref" else " ".join(step) for step in items(place[2])])


def setter(body, way, end, local):
    """Where on a way a local got what it has at `end`, back over copies of whole locals; nothing where that is not plain."""
    while local is not None and local not in addressed(body):
        found = [at for at in range(end) if way[at] != "return" and target(way[at])[1] == local]
        if not found or target(way[found[-1]])[2] != "lnil":
            return None
        end, one = found[-1], way[found[-1]]
        local = local_of(one[2][1]) if one[0] == "assign" and one[2][0] == "rvOpd" else None
        if local is None:
            return end
    return None


@dataclass(frozen=True)
class Known:
    """What is known at a point of a function that adds counts up or hands one on."""
    begun: bool = False               # the sum has been set to 0
    called: bool = False              # something may have been counted
    same: frozenset = frozenset()     # the locals that hold the sum's value now
    told: frozenset = frozenset()     # the locals that hold a result with the right count
    owed: frozenset = frozenset()     # the replies whose count has not been added or handed on, each by the local that it came in
    held: frozenset = frozenset()     # (local, reply): the locals that hold such a reply
    counts: frozenset = frozenset()   # (local, reply): the locals that hold its count

    def without(self, local):
        """After a local was set to something else: what it held, and what others hold of the reply that came in it, is not known any more."""
        held, counts = (frozenset(one for one in pairs if local not in one) for pairs in (self.held, self.counts))
        return replace(self, same=self.same - {local}, told=self.told - {local}, held=held, counts=counts)

    def counted(self, sum_):
        """After more may have been counted."""
        return replace(self, called=True, same=frozenset({sum_}), told=frozenset())


class Adding:
    """A walk along the ways of a function that adds counts up or hands one on."""

    def __init__(self, program, name):
        self.program = program
        self.body = program.bodies[name]
        # an address of a reply's first field leaves its count alone
        self.lent = {value[1][1] for _, value in assigns(self.body) if value[0] == "addrOf" and said(value[1])[1][:1] != ["field 0"]}
        self.rounds = 0               # the loops around
        self.wrong = []
        sums = {target[1] for target, value in assigns(self.body) if self.is_sum(target, value)}
        self.sum = next(iter(sums), "none")
        if len(sums) > 1:
            self.wrong.append("has more than one sum")
        if sums & self.lent:
            self.wrong.append("lends its sum")

    def is_sum(self, target, value):
        """Whether a count is added to the target: a reply's second field, or a local that may hold it."""
        if value[:2] != ["op2", ["add", "unsigned"]] or local_of(value[2]) != target[1] or target[2] != "lnil":
            return False
        place = place_of(value[3])
        known = {where[1] for where, one in assigns(self.body) if one[0] == "rvOpd" and self.is_count(place_of(one[1]))}
        return self.is_count(place) or local_of(value[3]) in known

    def is_count(self, place):
        """Whether a place is the second field of a reply or of a pair."""
        return bool(place) and said(place)[1] == ["field 1"] and type_name(kinds(self.body)[int(place[1])]) in self.program.replies | {"(,)"}

    def reply_of(self, operand, known):
        """The reply that an operand is, and the reply that it is the count of."""
        place = place_of(operand)
        if not place:
            return None, None
        whole = dict(known.held).get(place[1])
        if place[2] == "lnil":
            return whole, dict(known.counts).get(place[1])
        return None, whole if self.is_count(place) else None

    def faults(self):
        """What is wrong in the function."""
        first = Known()
        for number in parameters(self.body):
            if self.program.is_reply(kinds(self.body)[int(number)]):
                first = replace(first, called=True, owed=first.owed | {number}, held=first.held | {(number, number)})
        if self.along(self.body[5], first) is not None:
            self.wrong.append("ends without a return")
        return self.wrong

    def along(self, code, known):
        """What is known after a piece of code; nothing where it is not come to."""
        if known is None or code == "skip":
            return known
        if code == "return":
            if self.handed_on(known).owed:
                self.wrong.append("returns without adding a count")
            elif "0" not in self.handed_on(known).told:
                self.wrong.append("returns something else than its count")
            return None
        if code[0] == "seq":
            return self.along(code[2], self.along(code[1], known))
        if code[0] in ("if", "switch"):
            found = [self.along(one, known) for one in (code[2:] if code[0] == "if" else arms(code))]
            return functools.reduce(self.meet, found)
        if code[0] == "assign":
            return self.assigned(code[1], code[2], known)
        if code[0] == "call":
            return self.after_call(code, known)
        if code[0] in ("block", "loop"):
            # round and round, from and to where nothing is owed; only the sum itself is known to hold its value
            inside = replace(known.counted(self.sum) if known.begun else replace(known, told=frozenset()), held=frozenset(), counts=frozenset())
            self.settled(known)
            self.rounds += 1
            self.settled(self.along(code[1], inside))
            self.rounds -= 1
            return inside
        if code[0] == "exit":
            self.settled(known)
            return None
        self.wrong.append(f"has code that is not understood: {code[0]}")
        return known

    def meet(self, a, b):
        """What is known where two ways meet."""
        if a is None or b is None:
            return a or b
        if a.owed != b.owed:
            a, b = self.handed_on(a), self.handed_on(b)
        if a.owed != b.owed:
            self.wrong.append("adds a count on one way only")
        return Known(a.begun and b.begun, a.called or b.called, a.same & b.same, a.told & b.told, a.owed | b.owed, a.held & b.held, a.counts & b.counts)

    def handed_on(self, known):
        """The same where the one reply whose count is owed is the result, as it came."""
        results = {local for local, reply in known.held if known.owed == {reply} and self.is_result(local)}
        return replace(known, owed=frozenset(), told=known.told | results) if results and not known.begun else known

    def is_result(self, local):
        """Whether a local has the type of what the function hands out."""
        return same_type(kinds(self.body)[int(local)], kinds(self.body)[0])

    def settled(self, known):
        """Nothing may be owed here, and nothing counted before the sum is set to 0."""
        if known is not None and (known.owed or known.called and not known.begun):
            self.wrong.append("goes on without adding a count")

    def assigned(self, target, value, known):
        """What is known after an assignment."""
        local, whole = target[1], target[2] == "lnil"
        if local in dict(known.held) and not (whole and dict(known.held)[local] not in known.owed):
            self.wrong.append("changes a reply whose count is to be added")
        if local == self.sum:
            reply = self.reply_of(value[3], known)[1] if self.is_sum(target, value) else None
            if reply in known.owed:
                return replace(known.counted(self.sum), owed=known.owed - {reply})
            if not whole or value != ["rvOpd", NONE] or known.begun or known.called or self.rounds:
                self.wrong.append("changes its sum")
            return replace(known.without(local), begun=True, same=frozenset({local}))
        after = known.without(local)
        if not whole or local in self.lent:
            return after
        if value[0] == "aggregate" and self.is_result(local):
            return self.made(local, items(value[1]), known, after)
        if value[0] != "rvOpd":
            return after
        reply, count = self.reply_of(value[1], known)
        of = local_of(value[1])
        return replace(after, same=after.same | ({local} if of in known.same else set()), told=after.told | ({local} if of in known.told else set()),
                       held=after.held | ({(local, reply)} if reply else set()), counts=after.counts | ({(local, count)} if count else set()))

    def made(self, local, fields, known, after):
        """What is known after a result was put together: its last part is the count, or it has none where nothing was counted."""
        reply = self.reply_of(fields[-1], known)[1] if fields else None
        if reply in known.owed and len(known.owed) == 1 and not known.begun:
            return replace(after, owed=frozenset(), told=after.told | {local})
        is_right = len(fields) == 2 and local_of(fields[1]) in known.same or not known.called and (len(fields) == 1 or fields[-1:] == [NONE])
        return replace(after, told=after.told | {local}) if is_right else after

    def after_call(self, call, known):
        """What is known after a call."""
        program, name, local, whole = self.program, callee(call), call[3][1], call[3][2] == "lnil"
        if local == self.sum or known.owed & {local, dict(known.held).get(local)}:
            self.wrong.append(f"loses a count at the call of {name}")
        after = known.without(local)
        if name not in program.replying:
            return after
        if name not in program.hidden | program.taking:
            return replace(after, told=after.told | {local}) if whole and local not in self.lent and not known.called else after
        if name in program.hidden and known.called and not known.begun:
            self.wrong.append(f"calls {name} before its sum is set to 0")
        if local in self.lent:
            self.wrong.append("lends a reply whose count is to be added")
        # the result of a function that is given replies has their count too
        given = [self.reply_of(one, known)[0] for one in items(call[2]) if program.is_reply(kind_of(self.body, one))]
        after = after.counted(self.sum) if name in program.hidden else after
        if not whole or name in program.taking and (len(set(given)) < len(given) or not known.owed.issuperset(given)):
            # the count of a request is owed, also where its reply is in no local of its own
            return replace(after, owed=after.owed | {local}) if name in program.hidden else after
        return replace(after, owed=after.owed - set(given) | {local}, held=after.held | {(local, local)})


def requests_made(program, name, above=()):
    """How many requests a function makes at most, by itself and by those that it calls; more than one in a loop, or where it calls itself."""
    if name not in program.hidden or program.part_of(name) == "opens":
        return int(name in program.hidden)
    if name in above or program.part_of(name) != "asks":
        return 2
    body = program.bodies[name]
    codes = [body] + [node for node in walk(body) if node[0] == "loop"] * 2
    return sum(requests_made(program, one, (*above, name)) for code in codes for one, _, _ in calls(code))


def faults(bodies, part_of, counter, accesses, books, replies, unnamed):
    """Faults of a program; the words are those of `Program`."""
    program = Program(bodies, part_of, counter, accesses, books, replies, unnamed)
    return [f"{name} {one}" for name in bodies for one in dict.fromkeys(faults_of(program, name))]


def faults_of(program, name):
    """Faults of a function."""
    body, part = program.bodies[name], program.part_of(name)
    called = {one for one, _, _ in calls(body)}
    wrong = program.exact_faults(name) + program.handling_faults(name)
    if None in called and name not in program.unnamed and part != "host":
        wrong.append("calls a function that the call does not name")
    if any(has_count(body, argument) for one, arguments, _ in calls(body) if one is None for argument in arguments):
        wrong.append("lends a count to a function that the call does not name")
    wrong += [f"calls {one}, which is not for it" for one in sorted(called - {None}) if not program.may_call(name, one)]
    if part != "host":
        wrong += [f"hands on {one}, which makes a request" for one in sorted(handed(body, program.bodies) & program.hidden)]
        wrong += ["takes the address of a function"] if any(node[0] == "fnAddr" for node in walk(body)) else []
    if name in program.hidden and part not in PARTS:
        wrong.append("counts, and plays no part that is known")
    if part in ("counts", *HANDING):
        wrong += [f"calls {one}, which counts apart" for one in sorted(called & program.hidden - (program.replying if part == "adds" else set()))]
    if name in program.counting:
        wrong += passing_faults(body, program.counting) if name != program.counter else []
    elif called & program.counting and not (part == "counts" and program.is_of_a_book(name)):
        wrong.append("calls a function that counts, and does not count itself")
    if part in ("opens", "tells") and (part == "opens" or name in program.hidden | program.replying):
        return wrong + program.opening_faults(name)
    if part == "adds" and name in program.hidden | program.replying:
        return wrong + Adding(program, name).faults()
    if program.is_reply(kinds(body)[0]):
        wrong.append("returns a reply with its count, and neither opens a count nor adds counts up")
    if part == "asks" and requests_made(program, name) > 1:
        wrong.append("makes more than one request")
    return wrong
