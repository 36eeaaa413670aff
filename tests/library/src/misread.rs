//! Copies of the second implementation that take some bytes of a code for others,
//! as a library might whose step from byte to value has a wrong case. The checks
//! of bytes must tell every one of them from a sound one.

use std::cell::RefCell;
use std::rc::Rc;

use reference::Shape;

use crate::calls::Calls;
use crate::packed::kept;
use crate::second::{matched, write_image, Second};
use crate::table;
use crate::values::{Compared, Kept, Made, Matched, Plan, Routed, Verdict, Written};

/// A step from byte to value with a wrong case.
#[derive(Clone, Copy, Debug, PartialEq, Eq)]
pub enum Step {
    /// 3 and 4 are exchanged.
    ThreeAndFour,
    /// 9 is no digit.
    NineMissing,
    /// 0 is a 1.
    ZeroTaken,
    /// Every byte that is no digit is a 1.
    OthersTaken,
    /// The upper half of the byte isn't looked at.
    ColumnIgnored,
    /// The highest bit of the byte isn't looked at.
    SevenBits,
}

pub const STEPS: [Step; 6] = [
    Step::ThreeAndFour,
    Step::NineMissing,
    Step::ZeroTaken,
    Step::OthersTaken,
    Step::ColumnIgnored,
    Step::SevenBits,
];

impl Step {
    /// The byte that this one is taken for.
    pub fn read(self, byte: u8) -> u8 {
        match self {
            Step::ThreeAndFour if byte == b'3' => b'4',
            Step::ThreeAndFour if byte == b'4' => b'3',
            Step::NineMissing if byte == b'9' => b' ',
            Step::ZeroTaken if byte == b'0' => b'1',
            Step::OthersTaken if table::value(byte).is_none() => b'1',
            Step::ColumnIgnored => 0x30 | byte & 0x0f,
            Step::SevenBits if table::value(byte & 0x7f).is_some() => byte & 0x7f,
            _ => byte,
        }
    }
}

/// The calls that read codes.
#[derive(Clone, Copy, Debug, PartialEq, Eq)]
pub enum Call {
    Unmatched,
    Route,
}

/// The bytes that the bytes of a code of this shape are taken for.
pub type Reading = dyn Fn(Shape, &[u8]) -> Vec<u8>;

/// The second implementation with a wrong reading in one of its calls. It
/// remembers the last plan that it was handed, since to recognise one takes much
/// longer than a route.
pub struct Misread {
    call: Call,
    reading: Box<Reading>,
    last: RefCell<Option<(Plan, Rc<reference::Plan>)>>,
}

impl Misread {
    pub fn new(call: Call, reading: impl Fn(Shape, &[u8]) -> Vec<u8> + 'static) -> Misread {
        Misread {
            call,
            reading: Box::new(reading),
            last: RefCell::new(None),
        }
    }

    /// A reading byte by byte, which knows the place of each in the code.
    pub fn by_byte(call: Call, step: impl Fn(usize, u8) -> u8 + 'static) -> Misread {
        Misread::new(call, move |_, code| {
            let places = code.iter().enumerate();
            places.map(|(place, byte)| step(place, *byte)).collect()
        })
    }

    /// A code as this call reads it.
    fn read(&self, call: Call, plan: &reference::Plan, code: &[u8]) -> Vec<u8> {
        if call == self.call {
            (self.reading)(plan.shape(), code)
        } else {
            code.to_vec()
        }
    }

    fn held(&self, value: &Plan) -> Option<Rc<reference::Plan>> {
        let mut last = self.last.borrow_mut();
        if !last.as_ref().is_some_and(|(known, _)| known == value) {
            *last = kept(value).map(|plan| (*value, Rc::new(plan)));
        }
        last.as_ref().map(|(_, plan)| Rc::clone(plan))
    }
}

impl Calls for Misread {
    fn verdict(&self, draft: &Plan) -> Verdict {
        Second.verdict(draft)
    }

    fn keep(&self, draft: &Plan) -> Kept {
        Second.keep(draft)
    }

    fn is_plan(&self, value: &Plan) -> bool {
        Second.is_plan(value)
    }

    fn follow(&self, first: &Plan, second: &Plan) -> Made {
        Second.follow(first, second)
    }

    fn inverse(&self, plan: &Plan) -> Made {
        Second.inverse(plan)
    }

    fn power(&self, plan: &Plan, k: i32) -> Made {
        Second.power(plan, k)
    }

    fn same(&self, first: &Plan, second: &Plan) -> Compared {
        Second.same(first, second)
    }

    fn unmatched(&self, plan: &Plan, code: &[u8]) -> Matched {
        self.held(plan)
            .map_or(Matched::nothing(code.len()), |plan| {
                matched(&plan, &self.read(Call::Unmatched, &plan, code))
            })
    }

    fn route(&self, plan: &Plan, code: &[u8], out: &mut [u8]) -> Routed {
        let Some(plan) = self.held(plan) else {
            return Routed::refused(15);
        };
        let read = self.read(Call::Route, &plan, code);
        match plan.route(&read) {
            Err(refusal) => Routed::refused(refusal.number()),
            Ok(mut image) => {
                put_tail(&mut image.digits, code, matched(&plan, &read).tail);
                write_image(&image, out)
            }
        }
    }

    fn list(&self, plan: &Plan, slot: u8, out: &mut [u8]) -> Written {
        Second.list(plan, slot, out)
    }
}

/// Puts the last bytes of a code, as they came, at the end of its image: a tail
/// is copied, so that a wrong value doesn't show in it.
pub fn put_tail(image: &mut [u8], code: &[u8], tail: usize) {
    let start = image.len() - tail;
    image[start..].copy_from_slice(&code[code.len() - tail..]);
}
