//! Does with the original crate what the program `bench` does, and prints the same lines.
//!
//! Its input is that of `bench`, where each graph is given by its names: they become an `Fst`, name number i with the total i.
use fst::automaton::{AlwaysMatch, Str, Subsequence};
use fst::raw::Fst;
use fst::{Automaton, IntoStreamer, Streamer};
use std::cell::Cell;
use std::io::Read;
use std::time::{Duration, Instant};

/// A filter with the same answers, which counts the bytes that it accepts.
struct Counted<'c, F> {
    filter: F,
    bytes: &'c Cell<u64>,
}

impl<F: Automaton> Automaton for Counted<'_, F> {
    type State = F::State;

    fn start(&self) -> F::State {
        self.filter.start()
    }

    fn is_match(&self, state: &F::State) -> bool {
        self.filter.is_match(state)
    }

    fn can_match(&self, state: &F::State) -> bool {
        self.filter.can_match(state)
    }

    fn will_always_match(&self, state: &F::State) -> bool {
        self.filter.will_always_match(state)
    }

    fn accept(&self, state: &F::State, byte: u8) -> F::State {
        self.bytes.set(self.bytes.get() + 1);
        self.filter.accept(state, byte)
    }

    fn accept_eof(&self, state: &F::State) -> Option<F::State> {
        self.filter.accept_eof(state)
    }
}

/// How many keys were handed out, and the sum of their lengths and totals.
#[derive(Default)]
struct Found {
    keys: u64,
    sum: u64,
}

impl Found {
    fn add(&mut self, key: &[u8], total: u64) {
        self.keys += 1;
        self.sum += total + key.len() as u64;
    }
}

fn exhaust<A: Automaton>(graph: &Fst<Vec<u8>>, filter: A) -> Found {
    let mut stream = graph.search(filter).into_stream();
    let mut found = Found::default();
    while let Some((key, total)) = stream.next() {
        found.add(key, total.value());
    }
    found
}

fn open_each(graph: &Fst<Vec<u8>>, bounds: &[&[u8]]) -> Found {
    let mut found = Found::default();
    for bound in bounds {
        let mut stream = graph.search(AlwaysMatch).ge(bound).into_stream();
        if let Some((key, total)) = stream.next() {
            found.add(key, total.value());
        }
    }
    found
}

/// Searches once for each round and prints what was found and the shortest time.
fn rounds(rounds: u32, search: impl Fn() -> Found) {
    let mut found = search();
    let mut best: Option<Duration> = None;
    for _ in 0..rounds {
        let start = Instant::now();
        found = search();
        let time = start.elapsed();
        best = Some(best.map_or(time, |best| best.min(time)));
    }
    print!("keys {} sum {}", found.keys, found.sum);
    match best {
        Some(best) => println!(" ns {}", best.as_nanos()),
        None => println!(),
    }
}

fn search<A: Automaton + Clone>(name: &str, times: u32, graph: &Fst<Vec<u8>>, filter: A) {
    let bytes = Cell::new(0);
    exhaust(graph, Counted { filter: filter.clone(), bytes: &bytes });
    print!("{name} looks {} ", 2 * bytes.get() + 1);
    rounds(times, || exhaust(graph, filter.clone()));
}

/// The first line of a text, and what follows it.
fn cut_line(text: &[u8]) -> (&[u8], &[u8]) {
    let end = text.iter().position(|byte| *byte == b'\n').expect("a line feed");
    (&text[..end], &text[end + 1..])
}

fn text(bytes: &[u8]) -> &str {
    std::str::from_utf8(bytes).expect("text")
}

/// Does a task off the front of an input, and gives the rest of it.
fn task(input: &[u8]) -> &[u8] {
    let (first, mut rest) = cut_line(input);
    let words: Vec<&str> = text(first).split(' ').collect();
    let [kind, times, bytes] = words[..] else { panic!("a first line of three words") };
    let (mut prefix, mut subsequence, mut bounds) = ("", "", Vec::new());
    loop {
        let (line, behind) = cut_line(rest);
        rest = behind;
        match line {
            [] => break,
            [b'P', bytes @ ..] => prefix = text(bytes),
            [b'S', bytes @ ..] => subsequence = text(bytes),
            [b'G', bytes @ ..] => bounds.push(bytes),
            _ => panic!("a line that says nothing"),
        }
    }
    let (names, rest) = rest.split_at(bytes.parse().expect("a number"));
    let names = names.split(|byte| *byte == b'\n').filter(|name| !name.is_empty());
    let graph = Fst::from_iter_map(names.zip(0..)).expect("rising names");
    let times = times.parse().expect("a number");
    println!("{kind}");
    let prefix = Str::new(prefix).starts_with();
    let subsequence = Subsequence::new(subsequence);
    search("all", times, &graph, AlwaysMatch);
    search("prefix", times, &graph, prefix.clone());
    search("subsequence", times, &graph, subsequence.clone());
    search("both", times, &graph, prefix.intersection(subsequence));
    print!("openings bounds {} ", bounds.len());
    rounds(times, || open_each(&graph, &bounds));
    rest
}

fn main() {
    let mut input = Vec::new();
    std::io::stdin().read_to_end(&mut input).expect("an input");
    let mut rest = input.as_slice();
    while !rest.is_empty() {
        rest = task(rest);
    }
}
