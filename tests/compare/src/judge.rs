//! The judgement of an output: it has to be that of the reference, byte by
//! byte. Where it is another, the first record whose reply differs is named.

use reference::Desk;

/// One record of an input, with its byte 10 where it has one, and all that
/// the reference replies to it.
#[derive(Clone, PartialEq, Eq, Debug)]
pub struct Step {
    pub record: Vec<u8>,
    pub reply: Vec<u8>,
}

/// The first record whose reply is another than expected.
#[derive(Clone, PartialEq, Eq, Debug)]
pub struct Difference {
    /// The number of the record, counted from 0.
    pub index: usize,
    pub record: Vec<u8>,
    pub expected: Vec<u8>,
    pub got: Vec<u8>,
}

/// The lines of some bytes, each with its byte 10; the last may lack it.
pub fn lines(bytes: &[u8]) -> Vec<&[u8]> {
    bytes.split_inclusive(|&byte| byte == b'\n').collect()
}

/// The records of an input with the replies of the reference. The reference
/// is fed line by line: only so is it certain which record a reply is for.
pub fn expected(input: &[u8]) -> Vec<Step> {
    let mut desk = Desk::new();
    let mut steps: Vec<Step> = Vec::new();
    for record in lines(input) {
        let mut reply = Vec::new();
        desk.feed(record, &mut reply);
        let record = record.to_vec();
        steps.push(Step { record, reply });
    }
    let mut rest = Vec::new();
    desk.finish(&mut rest);
    match steps.last_mut() {
        Some(step) => step.reply.extend(rest),
        None if rest.is_empty() => {}
        None => steps.push(Step {
            record: Vec::new(),
            reply: rest,
        }),
    }
    steps
}

/// The first difference between the expected replies and an output. Of a
/// wrong reply as many lines are shown as were expected; what is left behind
/// the last reply is shown with it.
pub fn judge(steps: &[Step], output: &[u8]) -> Option<Difference> {
    let mut rest = output;
    for (index, step) in steps.iter().enumerate() {
        match rest.strip_prefix(step.reply.as_slice()) {
            Some(behind) => rest = behind,
            None => {
                let count = lines(&step.reply).len();
                let got: Vec<&[u8]> = lines(rest).into_iter().take(count).collect();
                return Some(difference(index, step, got.concat()));
            }
        }
    }
    if rest.is_empty() {
        return None;
    }
    let nothing = Step {
        record: Vec::new(),
        reply: Vec::new(),
    };
    let step = steps.last().unwrap_or(&nothing);
    let got = [step.reply.as_slice(), rest].concat();
    Some(difference(steps.len().saturating_sub(1), step, got))
}

fn difference(index: usize, step: &Step, got: Vec<u8>) -> Difference {
    Difference {
        index,
        record: step.record.clone(),
        expected: step.reply.clone(),
        got,
    }
}

#[cfg(test)]
mod tests {
    use super::*;

    fn step(record: &str, reply: &str) -> Step {
        Step {
            record: record.as_bytes().to_vec(),
            reply: reply.as_bytes().to_vec(),
        }
    }

    /// The reply to U among others: three pairs in B, one in each of A and C.
    const HELD: &str = "B\t2\t1\t3\nA\t2\t1\t1\nC\t3\t1\t1\nok\t3\n";

    fn used() -> Vec<Step> {
        vec![
            step("T\n", "ok\t3\n"),
            step("U\n", HELD),
            step("P\tA\t2\t1\n", ""),
            step("T\n", "no\t2\n"),
        ]
    }

    fn index(output: &str) -> Option<usize> {
        judge(&used(), output.as_bytes()).map(|difference| difference.index)
    }

    /// E2: "its reply is an equality like every other".
    #[test]
    fn the_lines_of_u_keep_their_order() {
        let index = |reply: &str| index(&format!("ok\t3\n{reply}no\t2\n"));
        assert_eq!(index(HELD), None);
        for other in [
            // by letter alone, the fewest first, equal ones by the later letter
            "A\t2\t1\t1\nB\t2\t1\t3\nC\t3\t1\t1\nok\t3\n",
            "A\t2\t1\t1\nC\t3\t1\t1\nB\t2\t1\t3\nok\t3\n",
            "B\t2\t1\t3\nC\t3\t1\t1\nA\t2\t1\t1\nok\t3\n",
            // the number of lines not at the end
            "ok\t3\nB\t2\t1\t3\nA\t2\t1\t1\nC\t3\t1\t1\n",
            // a line twice, in the place of another and beside it; a line missing; a wrong number
            "B\t2\t1\t3\nA\t2\t1\t1\nA\t2\t1\t1\nok\t3\n",
            "B\t2\t1\t3\nB\t2\t1\t3\nA\t2\t1\t1\nC\t3\t1\t1\nok\t3\n",
            "B\t2\t1\t3\nA\t2\t1\t1\nok\t3\n",
            "B\t2\t1\t4\nA\t2\t1\t1\nC\t3\t1\t1\nok\t3\n",
        ] {
            assert_eq!(index(other), Some(1), "{other}");
        }
    }

    /// Of a wrong reply all lines are shown that stand in its place.
    #[test]
    fn a_wrong_order_is_shown_with_the_right_one() {
        let other = "A\t2\t1\t1\nB\t2\t1\t3\nC\t3\t1\t1\nok\t3\n";
        let output = format!("ok\t3\n{other}no\t2\n");
        let found = judge(&used(), output.as_bytes()).unwrap();
        assert_eq!((found.index, found.record.as_slice()), (1, &b"U\n"[..]));
        assert_eq!(
            (&found.expected[..], &found.got[..]),
            (HELD.as_bytes(), other.as_bytes())
        );
    }

    #[test]
    fn the_lines_of_a_listing_keep_their_order() {
        let steps = [step("L\tA\n", "P\tA\t2\t1\nM\t11\t12\nM\t12\t11\nE\n")];
        assert_eq!(
            judge(&steps, b"P\tA\t2\t1\nM\t11\t12\nM\t12\t11\nE\n"),
            None
        );
        assert!(judge(&steps, b"P\tA\t2\t1\nM\t12\t11\nM\t11\t12\nE\n").is_some());
    }

    /// E1: "in from order", and closed by how many; E7: each with its place.
    #[test]
    fn the_lines_of_a_block_keep_their_order() {
        let block = "B\t111\t11\t1\nB\t112\t121\t2\nok\t2\n";
        let steps = [step("W\tA\t11\n", block), step("T\n", "ok\t1\n")];
        let index = |reply: &str| {
            let output = format!("{reply}ok\t1\n");
            judge(&steps, output.as_bytes()).map(|difference| difference.index)
        };
        assert_eq!(index(block), None);
        for other in [
            "B\t112\t121\t2\nB\t111\t11\t1\nok\t2\n",
            "B\t111\t11\t1\nok\t2\nB\t112\t121\t2\n",
            "B\t111\t11\t1\nB\t112\t121\t2\nok\t1\n",
            "B\t111\t11\t1\nB\t112\t121\t2\n",
            "B\t111\t11\t1\nok\t1\n",
            "B\t11\t111\t1\nB\t112\t121\t2\nok\t2\n",
            "B\t111\t11\t0\nB\t112\t121\t1\nok\t2\n",
            "B\t111\t11\t1\nB\t112\t121\nok\t2\n",
            "B\t111\t11\nB\t112\t121\nok\t2\n",
            "B\t111\t11\t1\nB\t112\t121\t2\nok\t2\t1\n",
            "no\t13\n",
        ] {
            assert_eq!(index(other), Some(0), "{other}");
        }
    }

    #[test]
    fn a_reply_goes_to_the_record_that_asked() {
        let output = format!("ok\t3\n{HELD}ok\t3\n");
        let found = judge(&used(), output.as_bytes()).unwrap();
        assert_eq!((found.index, found.record.as_slice()), (3, &b"T\n"[..]));
        assert_eq!(
            (&found.expected[..], &found.got[..]),
            (&b"no\t2\n"[..], &b"ok\t3\n"[..])
        );
    }

    #[test]
    fn missing_and_additional_output_are_differences() {
        assert_eq!(index(""), Some(0));
        assert_eq!(index(&format!("ok\t3\n{HELD}")), Some(3));
        assert_eq!(index(&format!("ok\t3\n{HELD}no\t2")), Some(3));
        let more = format!("ok\t3\n{HELD}no\t2\nok\n");
        let found = judge(&used(), more.as_bytes()).unwrap();
        assert_eq!((found.index, &found.got[..]), (3, &b"no\t2\nok\n"[..]));
        assert!(judge(&[], b"ok\n").is_some());
        assert_eq!(judge(&[], b""), None);
    }

    #[test]
    fn the_replies_of_the_reference_are_parted_by_record() {
        let steps = expected(b"P\tA\t2\t1\nM\t1\t1\nE\nL\tA\nT");
        let replies: Vec<&[u8]> = steps.iter().map(|step| step.reply.as_slice()).collect();
        let listing: &[u8] = b"P\tA\t2\t1\nM\t1\t1\nE\n";
        assert_eq!(replies, [&b""[..], b"", b"ok\t1\n", listing, b"ok\t1\n"]);
        assert!(expected(b"").is_empty());
    }
}
