//! The reader of expressions in plain Rust, for comparison: the same words, the same faults, the same tree.
//! Built by `rustc -O`; it proves nothing.

use std::fs;
use std::time::Instant;

#[derive(Clone, Copy)]
struct Span {
    start: u32,
    past: u32,
}

#[derive(Clone, Copy)]
struct Name<'s> {
    bytes: &'s [u8],
}

enum Sexp<'s> {
    Word(Name<'s>, Span),
    List(Vec<Sexp<'s>>, Span),
}

enum Word<'s> {
    Name(Name<'s>, Span),
    Left(Span),
    Right(Span),
}

struct Found<'s> {
    word: Word<'s>,
    past: usize,
}

#[derive(Debug, Clone, Copy)]
enum Kind {
    BadByte,
    Unclosed,
    Unopened,
    TooDeep,
    TooLong,
}

struct Fault {
    kind: Kind,
    span: Span,
}

const MOST_BYTES: usize = 268435456;
const MOST_OPEN: usize = 256;

enum Class {
    Blank,
    Semicolon,
    Left,
    Right,
    Inner,
    Bad,
}

fn class_of(b: u8) -> Class {
    match b {
        b'(' => Class::Left,
        b')' => Class::Right,
        b';' => Class::Semicolon,
        9..=13 | 32 => Class::Blank,
        33..=126 => Class::Inner,
        _ => Class::Bad,
    }
}

fn is_word_byte(b: u8) -> bool {
    33 <= b && b <= 126 && b != b'(' && b != b')' && b != b';'
}

fn span(start: usize, past: usize) -> Span {
    Span {
        start: start as u32,
        past: past as u32,
    }
}

fn word_end(text: &[u8], i: usize) -> usize {
    for j in i..text.len() {
        if !is_word_byte(text[j]) {
            return j;
        }
    }
    text.len()
}

fn next_word(text: &[u8], at: usize) -> Result<Option<Found<'_>>, Fault> {
    let mut comment = false;
    for i in at..text.len() {
        let b = text[i];
        if comment {
            comment = b != b'\n';
            continue;
        }
        let word = match class_of(b) {
            Class::Blank => continue,
            Class::Semicolon => {
                comment = true;
                continue;
            }
            Class::Left => Word::Left(span(i, i + 1)),
            Class::Right => Word::Right(span(i, i + 1)),
            Class::Bad => {
                return Err(Fault {
                    kind: Kind::BadByte,
                    span: span(i, i + 1),
                })
            }
            Class::Inner => {
                let past = word_end(text, i);
                let name = Name {
                    bytes: &text[i..past],
                };
                return Ok(Some(Found {
                    word: Word::Name(name, span(i, past)),
                    past,
                }));
            }
        };
        return Ok(Some(Found { word, past: i + 1 }));
    }
    Ok(None)
}

struct Open<'s> {
    left: Span,
    before: Vec<Sexp<'s>>,
}

fn read_sexps(text: &[u8]) -> Result<Vec<Sexp<'_>>, Fault> {
    if text.len() > MOST_BYTES {
        return Err(Fault {
            kind: Kind::TooLong,
            span: span(0, 0),
        });
    }
    let mut pending: Vec<Open> = Vec::new();
    let mut here = Vec::new();
    let mut at = 0;
    while let Some(found) = next_word(text, at)? {
        at = found.past;
        match found.word {
            Word::Name(name, place) => here.push(Sexp::Word(name, place)),
            Word::Left(place) => {
                if pending.len() == MOST_OPEN {
                    return Err(Fault {
                        kind: Kind::TooDeep,
                        span: place,
                    });
                }
                let before = std::mem::take(&mut here);
                pending.push(Open {
                    left: place,
                    before,
                });
            }
            Word::Right(place) => {
                let Some(list) = pending.pop() else {
                    return Err(Fault {
                        kind: Kind::Unopened,
                        span: place,
                    });
                };
                let members = std::mem::replace(&mut here, list.before);
                here.push(Sexp::List(
                    members,
                    Span {
                        start: list.left.start,
                        past: place.past,
                    },
                ));
            }
        }
    }
    match pending.pop() {
        None => Ok(here),
        Some(list) => Err(Fault {
            kind: Kind::Unclosed,
            span: list.left,
        }),
    }
}

// What was read, so that no reader can leave any of it out: words and lists, and a sum over names and places.
fn count(expressions: &[Sexp], counts: &mut [u64; 3]) {
    for expression in expressions {
        match expression {
            Sexp::Word(name, span) => {
                counts[0] += 1;
                counts[2] += name.bytes.len() as u64 + span.past as u64;
            }
            Sexp::List(members, span) => {
                counts[1] += 1;
                counts[2] += (span.past - span.start) as u64;
                count(members, counts);
            }
        }
    }
}

fn main() {
    for path in std::env::args().skip(1) {
        let text = fs::read(&path).expect("a file");
        let begun = Instant::now();
        let expressions = read_sexps(&text);
        let read = begun.elapsed().as_micros();
        match expressions {
            Ok(expressions) => {
                let mut counts = [0; 3];
                count(&expressions, &mut counts);
                println!(
                    "{} bytes {} words {} lists {} sum {} micros",
                    text.len(),
                    counts[0],
                    counts[1],
                    counts[2],
                    read
                );
            }
            Err(fault) => println!("{:?} at {}..{}", fault.kind, fault.span.start, fault.span.past),
        }
    }
}
