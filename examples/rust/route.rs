//! Routes the codes that it is given by the plan of document 01, those that are
//! too short part by part, and says of every other why not. It ends with 1 if a
//! code was refused.
//!
//!     rustc -L target/staticlib -l static=desk_c examples/rust/route.rs
//!     ./route 1122 11 13

use std::env;
use std::process::ExitCode;

const PLAN: [&str; 5] = ["P\tA\t2\t1", "M\t111\t11", "M\t112\t121", "M\t12\t122", "E"];

/// The reasons of include/refusals.h, by their numbers.
const REASONS: [&str; 21] = [
    "done",
    "not a record",
    "no plan is open, or one is",
    "n or r is out of range",
    "a word or code is empty, too long or has a wrong digit",
    "a plan has at most 128 pairs",
    "one word begins another",
    "a belt is not covered",
    "no such slot",
    "the slot is empty",
    "the shapes differ",
    "the result is too large for a plan",
    "the exponent is out of range",
    "the code is too short for the plan",
    "the buffer is too short",
    "not a plan or desk",
    "the count of changes is at its limit",
    "the seed is out of range",
    "no such station",
    "station 0 alone gives rights, only to others, and asks for the pairs held",
    "the station has no such right on the slot",
];

/// `struct desk_block` of include/desk.h. All fields stand here for the layout,
/// whether or not this program reads them; so in the structs below.
#[repr(C)]
#[allow(dead_code)]
struct Block {
    arity: u8,
    roots: u8,
    pairs: usize,
}

/// `struct desk_control`.
#[repr(C)]
#[allow(dead_code)]
struct Control {
    station: u32,
    changes: [u32; 8],
    rights: [u16; 7],
    pairs: u16,
}

/// `struct desk`.
#[repr(C)]
#[allow(dead_code)]
struct Desk {
    blocks: [Block; 9],
    opened: u8,
    control: Control,
    columns: [u64; 2304],
}

/// `struct desk_written`.
#[repr(C)]
#[allow(dead_code)]
struct Written {
    number: u8,
    column: u8,
    length: usize,
}

/// DESK_LONGEST_REPLY.
const LONGEST_REPLY: usize = 5127;

extern "C" {
    fn desk_fresh() -> Desk;
    fn desk_line(
        d: *mut Desk,
        line: *const u8,
        line_length: usize,
        out: *mut u8,
        out_length: usize,
    ) -> Written;
}

impl Desk {
    fn new() -> Desk {
        // SAFETY: it takes nothing.
        unsafe { desk_fresh() }
    }

    /// The reply to a line, or the number of its refusal.
    fn line(&mut self, line: &str) -> Result<String, u8> {
        let mut out = vec![0; LONGEST_REPLY];
        // SAFETY: the desk and the buffer are lent to this call alone, the line
        // is only read, and each length is that of its slice.
        let written =
            unsafe { desk_line(self, line.as_ptr(), line.len(), out.as_mut_ptr(), out.len()) };
        if written.number != 0 {
            return Err(written.number);
        }
        out.truncate(written.length);
        Ok(String::from_utf8(out).expect("replies are ASCII"))
    }

    fn route(&mut self, code: &str) -> Result<Routed, u8> {
        let reply = self.line(&format!("W\tA\t{code}"))?;
        let lines = reply.lines().map(|line| line.split('\t').collect());
        let lines: Vec<Vec<&str>> = lines.collect();
        if let [line] = &lines[..] {
            // "ok", the image and the place
            return Ok(Routed::Image(Image::new(code, line[1], line[2])));
        }
        // "B", a from-word, a to-word and a place, and last of all "ok" and how many
        let parts = lines.iter().filter(|line| line[0] == "B");
        let parts = parts.map(|line| Image::new(line[1], line[2], line[3]));
        Ok(Routed::Block(parts.collect()))
    }
}

/// Where a code or word goes, and which pair of the plan sends it there.
struct Image {
    code: String,
    image: String,
    place: String,
}

impl Image {
    fn new(code: &str, image: &str, place: &str) -> Image {
        let [code, image, place] = [code, image, place].map(String::from);
        Image { code, image, place }
    }

    fn text(&self) -> String {
        format!("{} -> {}, pair {}", self.code, self.image, self.place)
    }
}

/// Where the plan sends a code: to its image, or, where it is too short, each
/// from-word that it begins to a to-word.
enum Routed {
    Image(Image),
    Block(Vec<Image>),
}

impl Routed {
    fn print(&self, code: &str) {
        match self {
            Routed::Image(image) => println!("{}", image.text()),
            Routed::Block(parts) => {
                println!("{code}, part by part:");
                for part in parts {
                    println!("  {}", part.text());
                }
            }
        }
    }
}

fn reason(number: u8) -> &'static str {
    let reason = REASONS.get(usize::from(number));
    reason.unwrap_or(&"no such refusal")
}

fn main() -> ExitCode {
    let mut desk = Desk::new();
    for line in PLAN {
        if let Err(number) = desk.line(line) {
            eprintln!("the plan is refused with {number}, {}", reason(number));
            return ExitCode::FAILURE;
        }
    }
    let mut status = ExitCode::SUCCESS;
    for code in env::args().skip(1) {
        match desk.route(&code) {
            Ok(routed) => routed.print(&code),
            Err(number) => {
                println!("{code}: refused with {number}, {}", reason(number));
                status = ExitCode::FAILURE;
            }
        }
    }
    status
}
