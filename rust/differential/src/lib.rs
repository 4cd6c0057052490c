//! Lichenhusk and the Rust crate that it was ported from, given the same bytes.
//!
//! [`compare`] says what must agree, [`listing`] of a listing, [`many`] of many names at once and
//! [`values`] of a value that is read; [`tree`] has what must agree of a whole tree, by a [`reference`]
//! and by the Rust but for what is [`otherwise`] there; [`path`] of a path into a value, by a
//! [`spelling`] of its text and a [`walk`], and by the Rust; [`writing`] of a dictionary that is written
//! of the names that are [`given`], [`composing`] of an object of [`pairs`], and [`feeding`] of a
//! dictionary that comes in pieces, by its [`cuts`]. [`ours`] and [`original`] are the two sides, and
//! [`lengths`] has what the Rust tells of children's lengths; [`fixed`], [`exhaustive`], [`children`],
//! [`extremes`], [`long_names`], [`generate`], [`large`], [`trees`], [`paths`], [`sets`], [`objects`],
//! [`cuttings`] and [`damage`] make the inputs; [`run`] goes through them, counting in a [`tally`], and has
//! [`shrink`] make an input that disagrees as small as it can. [`faults`] are wrong readers, some of them
//! by [`miswriting`], [`miscomposing`] and [`misfeeding`]. [`replay`] writes answers of the Rust's down, to
//! be asked again where it is not at hand.

pub mod children;
pub mod compare;
pub mod composing;
pub mod cuts;
pub mod cuttings;
pub mod damage;
pub mod encode;
pub mod exhaustive;
pub mod extremes;
pub mod faults;
pub mod feeding;
pub mod fixed;
pub mod generate;
pub mod given;
pub mod large;
pub mod lengths;
pub mod listing;
pub mod long_names;
pub mod many;
pub mod miscomposing;
pub mod misfeeding;
pub mod miswriting;
pub mod objects;
pub mod original;
pub mod otherwise;
pub mod ours;
pub mod pairs;
pub mod path;
pub mod paths;
pub mod random;
pub mod reading;
pub mod reference;
pub mod replay;
pub mod run;
pub mod sets;
pub mod shrink;
pub mod spelling;
pub mod tally;
pub mod tree;
pub mod trees;
pub mod values;
pub mod walk;
pub mod writing;

use cuts::Cuts;
use given::Given;
use pairs::Pairs;

/// A dictionary or an object of more bytes is a large one: its places take more than two bytes.
pub const LARGE: usize = 65_536;

/// What both sides are asked about. Without an object, the dictionary alone.
#[derive(Clone, Debug, Default, PartialEq, Eq)]
pub struct Input {
    /// The dictionary's bytes.
    pub dict: Vec<u8>,
    /// The object's bytes.
    pub object: Option<Vec<u8>>,
    /// A value of which the whole tree is checked or, where there is a path, into which it is followed.
    pub tree: Option<Vec<u8>>,
    /// That path.
    pub path: Option<Vec<u8>>,
    /// A name to look for beside those that the two suggest.
    pub query: Option<Vec<u8>>,
    /// Names of which a dictionary is written. Where there are some, nothing else is asked.
    pub names: Option<Given>,
    /// Pairs of which an object is written over the dictionary.
    pub pairs: Option<Pairs>,
    /// Where the dictionary is cut, to come in pieces.
    pub pieces: Option<Cuts>,
}

impl Input {
    /// A dictionary alone.
    pub fn dictionary(dict: Vec<u8>) -> Input {
        Input {
            dict,
            ..Input::default()
        }
    }

    /// A dictionary and an object over it.
    pub fn object(dict: Vec<u8>, object: Vec<u8>) -> Input {
        Input {
            dict,
            object: Some(object),
            ..Input::default()
        }
    }

    /// A dictionary and a value over it, of which the whole tree is checked.
    pub fn tree(dict: Vec<u8>, value: Vec<u8>) -> Input {
        Input {
            dict,
            tree: Some(value),
            ..Input::default()
        }
    }

    /// A dictionary, a value over it and a path into it.
    pub fn path(dict: Vec<u8>, value: Vec<u8>, path: Vec<u8>) -> Input {
        Input {
            path: Some(path),
            ..Input::tree(dict, value)
        }
    }

    /// Names of which a dictionary is written.
    pub fn names(names: Given) -> Input {
        Input {
            names: Some(names),
            ..Input::default()
        }
    }

    /// A dictionary, and pairs of which an object is written over it.
    pub fn pairs(dict: Vec<u8>, pairs: Pairs) -> Input {
        Input {
            dict,
            pairs: Some(pairs),
            ..Input::default()
        }
    }

    /// A dictionary that comes in pieces.
    pub fn pieces(dict: Vec<u8>, cuts: Cuts) -> Input {
        Input {
            dict,
            pieces: Some(cuts),
            ..Input::default()
        }
    }

    /// How many bytes there are in all.
    pub fn size(&self) -> usize {
        let length = |bytes: &Option<Vec<u8>>| bytes.as_ref().map_or(0, Vec::len);
        let parts = [&self.object, &self.tree, &self.path, &self.query].map(length);
        let names = self.names.as_ref().map_or(0, Given::size);
        let pairs = self.pairs.as_ref().map_or(0, Pairs::size);
        let cuts = self.pieces.as_ref().map_or(0, Cuts::size);
        self.dict.len() + parts.iter().sum::<usize>() + names + pairs + cuts
    }
}

/// Bytes in hex without spaces, or `-` for none.
pub fn hex(bytes: &[u8]) -> String {
    if bytes.is_empty() {
        return "-".to_string();
    }
    bytes.iter().map(|byte| format!("{byte:02X}")).collect()
}

/// Bytes in hex for a reader: of many, the first and how many there are.
pub fn shown(bytes: &[u8]) -> String {
    match bytes.len() {
        0..=4096 => hex(bytes),
        length => format!("{}... ({length} bytes)", hex(&bytes[..64])),
    }
}
