//! Asks filters of the original crate three questions, at the states that given keys lead to.
//!
//! Its input is a line of keys and then a filter a line, in the notation of recorded/README.md. For each filter it prints the
//! marks of each key, `m` where the state matches, `c` where it can and `a` where it always will, or `-`, and the filter.
use fst::automaton::{AlwaysMatch, Str, Subsequence};
use fst::Automaton;
use std::any::Any;
use std::io::BufRead;
use std::rc::Rc;

type State = Rc<dyn Any>;

/// The questions of a filter of any type.
trait Ask {
    fn start(&self) -> State;
    fn is_match(&self, state: &State) -> bool;
    fn can_match(&self, state: &State) -> bool;
    fn will_always_match(&self, state: &State) -> bool;
    fn accept(&self, state: &State, byte: u8) -> State;
}

struct Typed<A>(A);

impl<A: Automaton> Typed<A>
where
    A::State: 'static,
{
    fn state<'s>(&self, state: &'s State) -> &'s A::State {
        state.downcast_ref().expect("a state of this filter")
    }
}

impl<A: Automaton> Ask for Typed<A>
where
    A::State: 'static,
{
    fn start(&self) -> State {
        Rc::new(self.0.start())
    }

    fn is_match(&self, state: &State) -> bool {
        self.0.is_match(self.state(state))
    }

    fn can_match(&self, state: &State) -> bool {
        self.0.can_match(self.state(state))
    }

    fn will_always_match(&self, state: &State) -> bool {
        self.0.will_always_match(self.state(state))
    }

    fn accept(&self, state: &State, byte: u8) -> State {
        Rc::new(self.0.accept(self.state(state), byte))
    }
}

/// A filter of any type, which the original's combinators can hold.
struct AnyFilter(Box<dyn Ask>);

impl Automaton for AnyFilter {
    type State = State;

    fn start(&self) -> State {
        self.0.start()
    }

    fn is_match(&self, state: &State) -> bool {
        self.0.is_match(state)
    }

    fn can_match(&self, state: &State) -> bool {
        self.0.can_match(state)
    }

    fn will_always_match(&self, state: &State) -> bool {
        self.0.will_always_match(state)
    }

    fn accept(&self, state: &State, byte: u8) -> State {
        self.0.accept(state, byte)
    }
}

fn any<A: Automaton + 'static>(filter: A) -> AnyFilter
where
    A::State: 'static,
{
    AnyFilter(Box::new(Typed(filter)))
}

/// Bytes in hex, or `_` for none.
fn bytes(text: &str) -> Vec<u8> {
    let text = text.trim_matches('_');
    (0..text.len()).step_by(2).map(|at| u8::from_str_radix(&text[at..at + 2], 16).expect("hex")).collect()
}

/// A text that lives on, since a filter borrows it.
fn lasting(hex: &str) -> &'static str {
    String::from_utf8(bytes(hex)).expect("text").leak()
}

/// The filter at the front of a text, and the rest of the text.
fn read_filter(text: &str) -> (AnyFilter, &str) {
    let (word, rest) = text.split_at(text.find(['(', ')', ',']).unwrap_or(text.len()));
    match word.split_once(':') {
        Some(("str", hex)) => return (any(Str::new(lasting(hex))), rest),
        Some(("sub", hex)) => return (any(Subsequence::new(lasting(hex))), rest),
        _ if word == "all" => return (any(AlwaysMatch), rest),
        _ => {}
    }
    let (left, rest) = read_filter(&rest[1..]);
    match word {
        "sw" => return (any(left.starts_with()), &rest[1..]),
        "not" => return (any(left.complement()), &rest[1..]),
        _ => {}
    }
    let (right, rest) = read_filter(&rest[1..]);
    match word {
        "or" => (any(left.union(right)), &rest[1..]),
        "and" => (any(left.intersection(right)), &rest[1..]),
        _ => panic!("no filter: {word}"),
    }
}

/// The marks of the state that a key leads to.
fn marks(filter: &AnyFilter, key: &str) -> String {
    let state = bytes(key).into_iter().fold(filter.start(), |state, byte| filter.accept(&state, byte));
    let answers = [
        ('m', filter.is_match(&state)),
        ('c', filter.can_match(&state)),
        ('a', filter.will_always_match(&state)),
    ];
    let marks: String = answers.into_iter().filter(|(_, yes)| *yes).map(|(mark, _)| mark).collect();
    if marks.is_empty() { "-".into() } else { marks }
}

fn main() {
    let mut lines = std::io::stdin().lock().lines().map(|line| line.expect("text"));
    let keys = lines.next().expect("a line of keys");
    for text in lines {
        let (filter, rest) = read_filter(&text);
        assert!(rest.is_empty(), "{rest} after the filter");
        let marks: Vec<String> = keys.split(',').map(|key| marks(&filter, key)).collect();
        println!("{} {text}", marks.join(","));
    }
}
