//! The lines that are written down say what our answers must be, and ours are that.

use differential::ours::{Archive, Reader};
use differential::pairs::Pairs;
use differential::replay::{KEPT, MOST_BYTES, SEED, lines};
use lichenhusk::Strip;
use std::collections::BTreeSet;

/// What a lent word holds before a call.
const BEFORE: u32 = 7;

fn bytes(text: &str) -> Vec<u8> {
    if text == "-" {
        return vec![];
    }
    let pair = |at| u8::from_str_radix(&text[at..at + 2], 16).expect("two hex digits");
    (0..text.len()).step_by(2).map(pair).collect()
}

fn number(word: &str) -> u32 {
    word.parse().expect("a number")
}

fn numbers(words: &[&str]) -> Vec<u32> {
    words.iter().map(|word| number(word)).collect()
}

/// Our answer to a case, and the words, or the bytes, that were lent for it.
fn ours(case: &str) -> (Strip, Vec<u32>) {
    let words: Vec<&str> = case.split(' ').collect();
    let strip = match words[..] {
        ["dictionary", d] => Archive.dictionary(&bytes(d)),
        ["name", d, n] => Archive.name(&bytes(d), number(n) as usize),
        ["layer", d, o] => Archive.layer(&bytes(d), &bytes(o)),
        ["value", v] => Archive.value(&bytes(v)),
        ["tree", d, v] => Archive.tree(&bytes(d), &bytes(v), &mut []),
        ["lookup", d, o, name] => Archive.lookup(&bytes(d), &bytes(o), &bytes(name)),
        ["path", d, v, p] => {
            let (d, v, p) = (bytes(d), bytes(v), bytes(p));
            assert!(d.len().max(v.len()).max(p.len()) <= 256);
            let (mut names, mut words) = ([0; 256], [0; 3 * 256]);
            Archive.path(&d, &v, &p, &mut names, &mut words)
        }
        ["all", d, o, run, room, ref ends @ ..] => {
            let (d, o, run) = (bytes(d), bytes(o), bytes(run));
            let mut lent = vec![BEFORE; number(room) as usize];
            // What the program that replays the lines has room for.
            assert!(d.len().max(o.len()).max(run.len()) <= 256 && lent.len() <= 16);
            let strip = Archive.lookup_all(&d, &o, &run, &numbers(ends), &mut lent);
            return (strip, lent);
        }
        ["write", run, room, ref ends @ ..] => {
            let (run, ends) = (bytes(run), numbers(ends));
            let mut lent = vec![BEFORE as u8; number(room) as usize];
            assert!(run.len().max(lent.len()) <= 256 && ends.len() <= 16);
            let strip = Archive.write_dictionary(&run, &ends, &mut [], &mut [], &mut lent);
            return (strip, lent.into_iter().map(u32::from).collect());
        }
        ["write-object", d, children, room, ref words @ ..] => {
            let (d, bytes, words) = (bytes(d), bytes(children), numbers(words));
            let mut lent = vec![BEFORE as u8; number(room) as usize];
            assert!(d.len().max(bytes.len()).max(lent.len()) <= 256 && words.len() <= 48);
            let pairs = Pairs { bytes, words };
            let strip = Archive.write_object(&d, &pairs, &mut [], &mut [], &mut lent);
            return (strip, lent.into_iter().map(u32::from).collect());
        }
        ["pieces", room, ref pieces @ ..] => {
            let mut store = vec![0; number(room) as usize];
            let taken = |state, piece: &&str| Archive.feed(&mut store, &bytes(piece), state);
            pieces.iter().fold(Archive.begin(), taken)
        }
        _ => panic!("no case: {case}"),
    };
    (strip, vec![])
}

/// Whether our answer is as the line says, by the rules of rust/README.md.
fn holds(case: &str, says: &str, strip: Strip, lent: &[u32]) -> bool {
    let words: Vec<&str> = says.split(' ').collect();
    let rows = match words[..] {
        ["rows" | "writes", _, _, ":", ref rows @ ..] => numbers(rows),
        ["lays", _, _, _, ":", ref bytes @ ..] => numbers(bytes),
        _ => vec![],
    };
    let (written, after) = lent.split_at(rows.len());
    if written != rows || after.iter().any(|&word| word != BEFORE) {
        return false;
    }
    let (code, start, place) = (strip.code, strip.start, strip.place);
    let ours = [code, strip.number, strip.id, start, strip.end, place];
    match words[..] {
        ["accepts", count, end] if !case.starts_with("layer") => {
            ours == [0, number(count), 0, 0, number(end), 0]
        }
        ["accepts" | "child", count, end] | ["rows", count, end, ":", ..] => {
            ours == [0, number(count), 0, start, number(end), 0]
        }
        ["writes", count, length, ":", ..] => ours == [0, number(count), 0, 0, number(length), 0],
        ["lays", count, start, length, ":", ..] => {
            ours == [0, number(count), 0, number(start), number(length), 0]
        }
        ["at", start, end] => ours == [0, 0, 0, number(start), number(end), 0],
        ["found", field, id, start, end] => {
            ours == [0, number(field), number(id), number(start), number(end), 0]
        }
        ["reads", kind, low, high] => ours == [0, number(kind), 0, number(low), number(high), 0],
        ["wants", held] => {
            ours == [3, number(held), 0, 0, strip.end, 0] && strip.end > strip.number
        }
        ["absent"] => ours == [1, 0, 0, 0, 0, 0],
        ["refuses", code, start] => ours == [number(code), 0, 0, number(start), 0, place],
        ["refuses", code] => ours == [number(code), 0, 0, 0, 0, place],
        _ => panic!("no answer: {says}"),
    }
}

/// The case of a line, and what is said to it.
fn said(line: &str) -> (&str, &str) {
    line.split_once(" => ").expect("a case and an answer")
}

/// What is asked, and the word of the answer with a refusal's number, or that of the rows.
fn kind(case: &str, says: &str) -> String {
    let first = |text: &str| text.split(' ').next().unwrap_or_default().to_string();
    match first(says).as_str() {
        "refuses" => {
            let number = says.split(' ').nth(1).unwrap_or_default();
            format!("{} refuses {number}", first(case))
        }
        "rows" => format!("{} rows of {}", first(case), case.split(' ').count() - 5),
        word => format!("{} {word}", first(case)),
    }
}

/// What lines there must be.
const KINDS: [&str; 95] = [
    "dictionary accepts",
    "dictionary refuses 11",
    "dictionary refuses 12",
    "dictionary refuses 13",
    "dictionary refuses 14",
    "dictionary refuses 15",
    "dictionary refuses 16",
    "dictionary refuses 17",
    "dictionary refuses 18",
    "dictionary refuses 19",
    "name at",
    "name refuses 13",
    "name refuses 18",
    "name refuses 31",
    "layer accepts",
    "layer child",
    "layer refuses 13",
    "layer refuses 18",
    "layer refuses 21",
    "layer refuses 23",
    "layer refuses 24",
    "layer refuses 25",
    "layer refuses 26",
    "layer refuses 27",
    "layer refuses 28",
    "lookup found",
    "lookup absent",
    "all rows of 0",
    "all rows of 1",
    "all rows of 2",
    "all rows of 3",
    "all refuses 13",
    "all refuses 18",
    "all refuses 23",
    "all refuses 25",
    "all refuses 26",
    "all refuses 28",
    "value reads",
    "value refuses 50",
    "value refuses 51",
    "tree accepts",
    "tree refuses 13",
    "tree refuses 23",
    "tree refuses 24",
    "tree refuses 25",
    "tree refuses 26",
    "tree refuses 27",
    "tree refuses 28",
    "tree refuses 50",
    "tree refuses 51",
    "tree refuses 54",
    "tree refuses 60",
    "tree refuses 61",
    "tree refuses 62",
    "tree refuses 11",
    "tree refuses 12",
    "path found",
    "path absent",
    "path refuses 13",
    "path refuses 21",
    "path refuses 23",
    "path refuses 25",
    "path refuses 26",
    "path refuses 27",
    "path refuses 28",
    "path refuses 53",
    "path refuses 60",
    "path refuses 62",
    "path refuses 70",
    "path refuses 71",
    "path refuses 72",
    "path refuses 73",
    "path refuses 74",
    "path refuses 75",
    "write writes",
    "write refuses 45",
    "write refuses 46",
    "write-object lays",
    "write-object refuses 13",
    "write-object refuses 18",
    "write-object refuses 25",
    "write-object refuses 26",
    "write-object refuses 28",
    "write-object refuses 45",
    "write-object refuses 46",
    "pieces accepts",
    "pieces wants",
    "pieces refuses 12",
    "pieces refuses 14",
    "pieces refuses 15",
    "pieces refuses 16",
    "pieces refuses 17",
    "pieces refuses 18",
    "pieces refuses 19",
    "pieces refuses 44",
];

#[test]
fn our_answers_are_as_the_lines_say() {
    let lines = lines(11, 2200);
    assert_eq!(lines.len(), 2200);
    let mut kinds = BTreeSet::new();
    for line in &lines {
        let (case, says) = said(line);
        let (strip, lent) = ours(case);
        assert!(
            holds(case, says, strip, &lent),
            "{line}: {strip:?} {lent:?}"
        );
        kinds.insert(kind(case, says));
    }
    for kind in KINDS {
        assert!(kinds.contains(kind), "no line of {kind}");
    }
}

/// The same seed gives the same lines, in order, none twice, and no more bytes than may be.
#[test]
fn the_lines_are_settled() {
    let first = lines(12, 500);
    assert_eq!(first, lines(12, 500));
    assert!(first.is_sorted_by(|a, b| a < b));
    assert!(bytes_of(&first) < MOST_BYTES);
}

fn bytes_of(lines: &[String]) -> usize {
    lines.iter().map(|line| line.len() + 1).sum()
}

/// What the repository keeps is what would be written today.
#[test]
fn the_kept_lines_are_these() {
    let path = "../../crates/replay/data/answers";
    let Ok(kept) = std::fs::read_to_string(path) else {
        println!("skipped: there is no {path}");
        return;
    };
    let lines = lines(SEED, KEPT);
    assert!(bytes_of(&lines) < MOST_BYTES);
    let kept: Vec<&str> = kept.lines().collect();
    assert!(kept == lines, "write it again: ./run.sh replay {KEPT}");
}
