//! A guest in Rust over the collections, texts and formats of its standard library: each function works on a number of things
//! that a seed gives, and answers a sum over what came of it. It computes with no floats.

use std::cell::RefCell;
use std::cmp::Reverse;
use std::collections::{BTreeMap, BTreeSet, BinaryHeap, HashMap, VecDeque};
use std::fmt::Write;
use std::rc::Rc;

struct Random(u64);

impl Random {
    fn of(seed: i64) -> Random {
        Random(seed as u64 | 1)
    }

    fn next(&mut self) -> u64 {
        self.0 ^= self.0 << 13;
        self.0 ^= self.0 >> 7;
        self.0 ^= self.0 << 17;
        self.0
    }
}

struct Sum(u64);

impl Sum {
    fn add(&mut self, more: u64) {
        self.0 = (self.0 ^ more).wrapping_mul(0x100000001b3).rotate_left(5);
    }

    fn add_text(&mut self, text: &str) {
        text.bytes().for_each(|byte| self.add(byte as u64));
    }
}

/// Texts under numbers and numbers under texts.
#[no_mangle]
pub extern "C" fn maps(count: i32, seed: i64) -> i64 {
    let mut random = Random::of(seed);
    let mut texts: HashMap<u64, String> = HashMap::new();
    let mut numbers: BTreeMap<String, u64> = BTreeMap::new();
    for place in 0..count {
        let key = random.next() % (count as u64 * 2);
        let mut text = String::new();
        let shown = Some((key as u8, "a\n\u{1F600}"));
        write!(text, "key {:>8x} at {:05} of {:?}", key, place, shown).unwrap();
        numbers.insert(text.clone(), key);
        texts.entry(key).and_modify(|held| held.push('!')).or_insert(text);
        if let Some(held) = texts.remove(&(key / 2)) {
            numbers.remove(&held);
        }
    }
    let mut sum = Sum(0);
    let mut rows: Vec<_> = texts.iter().collect();
    rows.sort();
    rows.iter().for_each(|(_, text)| sum.add_text(text));
    numbers
        .range("key     1".to_string()..)
        .for_each(|(_, number)| sum.add(*number));
    sum.0 as i64
}

trait Shape {
    fn area(&self) -> i64;
    fn scale(&mut self, by: i64);
    fn name(&self) -> String;
}

struct Oblong {
    width: i64,
    height: i64,
}

struct Group(Vec<Box<dyn Shape>>);

impl Shape for Oblong {
    fn area(&self) -> i64 {
        self.width.wrapping_mul(self.height)
    }

    fn scale(&mut self, by: i64) {
        self.width = self.width.wrapping_mul(by);
        self.height = self.height.wrapping_add(by);
    }

    fn name(&self) -> String {
        format!("{} by {:#x}", self.width, self.height)
    }
}

impl Shape for Group {
    fn area(&self) -> i64 {
        self.0.iter().map(|shape| shape.area()).fold(0, i64::wrapping_add)
    }

    fn scale(&mut self, by: i64) {
        self.0.iter_mut().for_each(|shape| shape.scale(by));
    }

    fn name(&self) -> String {
        self.0.iter().map(|shape| shape.name()).collect::<Vec<_>>().join(", ")
    }
}

/// Calls through tables, by traits.
#[no_mangle]
pub extern "C" fn shapes(count: i32, seed: i64) -> i64 {
    let mut random = Random::of(seed);
    let mut shapes: Vec<Box<dyn Shape>> = Vec::new();
    for _ in 0..count {
        let number = (random.next() >> 33) as i64;
        if number % 3 == 0 {
            let half = shapes.split_off(shapes.len() / 2);
            shapes.push(Box::new(Group(half)));
        } else {
            shapes.push(Box::new(Oblong {
                width: number % 77 - 30,
                height: number % 13,
            }));
        }
        shapes.iter_mut().for_each(|shape| shape.scale(number % 5 - 2));
    }
    let mut sum = Sum(0);
    for shape in &shapes {
        sum.add(shape.area() as u64);
        sum.add_text(&shape.name());
    }
    sum.0 as i64
}

#[derive(Debug)]
enum Term {
    Number(i64),
    Of(Rc<Term>, char, Rc<Term>),
}

struct Parser<'a> {
    text: &'a [u8],
    at: usize,
}

impl Parser<'_> {
    fn number(&mut self) -> Result<Term, String> {
        let start = self.at;
        while matches!(self.text.get(self.at), Some(b'0'..=b'9')) {
            self.at += 1;
        }
        let digits = std::str::from_utf8(&self.text[start..self.at]).unwrap();
        digits
            .parse()
            .map(Term::Number)
            .map_err(|fault| format!("{:?} at {}", fault, start))
    }

    fn factor(&mut self) -> Result<Term, String> {
        if self.text.get(self.at) != Some(&b'(') {
            return self.number();
        }
        self.at += 1;
        let inner = self.term(0)?;
        if self.text.get(self.at) != Some(&b')') {
            return Err(format!("no bracket at {}", self.at));
        }
        self.at += 1;
        Ok(inner)
    }

    fn term(&mut self, level: usize) -> Result<Term, String> {
        let signs = match ["+-", "*/%"].get(level) {
            Some(signs) => signs,
            None => return self.factor(),
        };
        let mut left = self.term(level + 1)?;
        while let Some(sign) = self
            .text
            .get(self.at)
            .map(|byte| *byte as char)
            .filter(|sign| signs.contains(*sign))
        {
            self.at += 1;
            left = Term::Of(Rc::new(left), sign, Rc::new(self.term(level + 1)?));
        }
        Ok(left)
    }
}

fn value(term: &Term) -> Option<i64> {
    match term {
        Term::Number(number) => Some(*number),
        Term::Of(left, sign, right) => {
            let (left, right) = (value(left)?, value(right)?);
            match sign {
                '+' => left.checked_add(right),
                '-' => left.checked_sub(right),
                '*' => left.checked_mul(right),
                '/' => left.checked_div(right),
                _ => left.checked_rem_euclid(right),
            }
        }
    }
}

fn term_text(random: &mut Random) -> String {
    let (mut text, mut open) = (String::new(), 0);
    for _ in 0..random.next() % 30 + 1 {
        let number = random.next() >> 20;
        if number % 7 == 0 {
            text.push('(');
            open += 1;
        }
        write!(text, "{}", number % 100_000).unwrap();
        if number % 11 == 0 && open > 0 {
            text.push(')');
            open -= 1;
        }
        text.push(char::from(b"+-*/%"[number as usize % 5]));
    }
    text.pop();
    text + &")".repeat(open)
}

/// Terms of numbers, written, read and computed.
#[no_mangle]
pub extern "C" fn terms(count: i32, seed: i64) -> i64 {
    let (mut random, mut sum) = (Random::of(seed), Sum(0));
    for _ in 0..count {
        let text = term_text(&mut random);
        match (Parser {
            text: text.as_bytes(),
            at: 0,
        })
        .term(0)
        {
            Ok(term) => {
                sum.add(value(&term).unwrap_or(-7) as u64);
                sum.add_text(&format!("{:?}", term));
            }
            Err(fault) => sum.add_text(&fault),
        }
    }
    sum.0 as i64
}

/// The shortest ways in a graph.
#[no_mangle]
pub extern "C" fn ways(count: i32, seed: i64) -> i64 {
    let (count, mut random) = (count as u64, Random::of(seed));
    let mut edge = || (((random.next() >> 8) % count) as usize, random.next() >> 54);
    let edges: Vec<Vec<(usize, u64)>> = (0..count).map(|_| (0..4).map(|_| edge()).collect()).collect();
    let mut far = vec![u64::MAX; edges.len()];
    let mut heap = BinaryHeap::from([Reverse((0u64, 0usize))]);
    far[0] = 0;
    while let Some(Reverse((distance, at))) = heap.pop() {
        for &(to, length) in &edges[at] {
            if distance + length < far[to] {
                far[to] = distance + length;
                heap.push(Reverse((distance + length, to)));
            }
        }
    }
    let (mut queue, mut seen, mut sum) = (VecDeque::from([0usize]), BTreeSet::new(), Sum(0));
    while let Some(at) = queue.pop_front() {
        if seen.insert(at) {
            sum.add(far[at]);
            queue.extend(edges[at].iter().map(|edge| edge.0));
        }
    }
    sum.0 as i64
}

/// Numbers of 128 bits.
#[no_mangle]
pub extern "C" fn wide(count: i32, seed: i64) -> i64 {
    let (mut random, mut sum) = (Random::of(seed), Sum(0));
    let (mut product, mut rest) = (1u128, 3i128);
    for _ in 0..count {
        let number = (random.next() as u128) << 64 | random.next() as u128;
        product = product.wrapping_mul(number | 1).rotate_right(number as u32 % 128);
        rest = rest.wrapping_sub(number as i128) / ((product >> 70) as i128 - 7).max(1) % (number as i64 | 1) as i128;
        sum.add((product >> 32) as u64 ^ rest as u64);
        sum.add_text(&format!("{} {} {}", product, rest, number.leading_zeros()));
    }
    sum.0 as i64
}

type Step = Box<dyn Fn(i64) -> i64>;

thread_local! {
    static STEPS: RefCell<Vec<Step>> = RefCell::new(Vec::new());
}

fn step(number: i64, place: u32) -> Step {
    match number & 3 {
        0 => Box::new(move |value| value.wrapping_add(number)),
        1 => Box::new(move |value| value.wrapping_mul(place as i64 | 1)),
        2 => Box::new(i64::swap_bytes),
        _ => Box::new(move |value| value.rotate_left(place) ^ number),
    }
}

/// Closures that are kept.
#[no_mangle]
pub extern "C" fn steps(count: i32, seed: i64) -> i64 {
    let mut random = Random::of(seed);
    STEPS.with(|steps| {
        steps
            .borrow_mut()
            .extend((0..count as u32).map(|place| step(random.next() as i64, place)));
        steps.borrow().iter().fold(seed, |value, step| step(value))
    })
}

/// Words of letters of one to four bytes.
#[no_mangle]
pub extern "C" fn words(count: i32, seed: i64) -> i64 {
    let (mut random, mut sum) = (Random::of(seed), Sum(0));
    let letters: Vec<char> = "aäbcß ßx\u{10348}\u{2028}\t.,;ÀÉ".chars().collect();
    let mut letter = || letters[(random.next() >> 11) as usize % letters.len()];
    let text: String = (0..count).map(|_| letter()).collect();
    let turned = |word: &str| word.to_uppercase().chars().rev().collect::<String>();
    let mut words: Vec<String> = text.split_whitespace().map(turned).collect();
    words.sort_by(|left, right| right.len().cmp(&left.len()).then_with(|| left.cmp(right)));
    words.dedup();
    for word in &words {
        sum.add_text(word.trim_matches(|letter: char| letter.is_ascii_punctuation()));
        sum.add(word.find("SS").unwrap_or(99) as u64);
    }
    sum.add(text.replace('ß', "").len() as u64);
    sum.0 as i64
}

/// A place past the end of a list: it panics.
#[no_mangle]
pub extern "C" fn past_the_end(count: i32, seed: i64) -> i64 {
    let list: Vec<i64> = (0..count as i64).collect();
    list[seed as usize]
}
