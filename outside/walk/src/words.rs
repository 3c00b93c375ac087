//! The words that the program takes.

use skuldrefn::{Context, Place};
use std::ffi::{OsStr, OsString};

pub const USAGE: &str = "\
usage: walk IMAGE root=R eptp=E vpid=V address=A [pcid=P] [capability=C] [width=N]
What the processor may cache of the linear address A: walks the page tables in
IMAGE, memory from physical address 0 on, from the guest-physical address R, each
address through the EPT of the EPTP E. Numbers are decimal, or hexadecimal with
0x. PCID 0, capability 0xf0106304140 and physical width 52 if not given. -- goes
before an IMAGE that starts with -. The image may not change meanwhile.";

/// What the words ask for.
#[derive(Debug)]
pub struct Words<'a> {
    pub image: &'a OsStr,
    pub context: Context,
    pub root: u64,
    pub eptp: u64,
    pub vpid: u16,
    pub address: u64,
}

const NAMES: [&str; 7] = [
    "root",
    "eptp",
    "vpid",
    "address",
    "pcid",
    "capability",
    "width",
];

impl Words<'_> {
    /// The image, and then the numbers in any order, each once.
    pub fn of(words: &[OsString]) -> Result<Words<'_>, String> {
        let (image, rest) = image(words)?;
        let mut numbers = [None; NAMES.len()];
        for word in rest {
            let (place, number) = named(word)?;
            if numbers[place].replace(number).is_some() {
                return Err(format!("{} is given twice", NAMES[place]));
            }
        }
        let [root, eptp, vpid, address, pcid, capability, width] = numbers;
        let needed = |number: Option<u64>, place: usize| {
            let name = NAMES[place];
            number.ok_or_else(|| format!("{name}=NUMBER is missing"))
        };
        let vpid = needed(vpid, 2)?;
        let own = Context::program();
        Ok(Words {
            image,
            context: Context {
                capability: capability.unwrap_or(own.capability),
                width: width.unwrap_or(own.width),
                pcid: pcid.unwrap_or(0),
                place: Place::Root,
                ..own
            },
            root: needed(root, 0)?,
            eptp: needed(eptp, 1)?,
            vpid: u16::try_from(vpid).map_err(|_| format!("vpid is at most 65535, not {vpid}"))?,
            address: needed(address, 3)?,
        })
    }
}

/// The image's name, and the words behind it.
fn image(words: &[OsString]) -> Result<(&OsStr, &[OsString]), String> {
    let dashes = words.first().is_some_and(|word| word == "--");
    let Some((image, rest)) = words[usize::from(dashes)..].split_first() else {
        return Err("the image is missing".to_string());
    };
    if !dashes {
        if image == "-" {
            return Err("the image is mapped, and so cannot be standard input".to_string());
        }
        if image.as_encoded_bytes().starts_with(b"-") {
            return Err(format!("no option {image:?}"));
        }
        if named(image).is_ok() {
            return Err(format!("the image goes before {image:?}"));
        }
    }
    Ok((image, rest))
}

/// The place of a name in NAMES, and the number after it.
fn named(word: &OsStr) -> Result<(usize, u64), String> {
    let text = word.to_str().ok_or_else(|| format!("no word {word:?}"))?;
    let (name, value) = text.split_once('=').unwrap_or((text, ""));
    let place = NAMES.iter().position(|own| *own == name);
    let place = place.ok_or_else(|| format!("no word {text:?}"))?;
    let number = number(value).ok_or_else(|| {
        format!("{name} takes a number below 2^64, decimal or with 0x, as in {name}=0x1000; {value:?} is none")
    })?;
    Ok((place, number))
}

/// A decimal number, or a hexadecimal one with 0x.
pub fn number(word: &str) -> Option<u64> {
    let (digits, radix) = match word.strip_prefix("0x") {
        Some(digits) => (digits, 16),
        None => (word, 10),
    };
    // A sign would be taken too.
    let plain = digits.chars().all(|digit| digit.is_digit(radix));
    if !plain {
        return None;
    }
    u64::from_str_radix(digits, radix).ok()
}
