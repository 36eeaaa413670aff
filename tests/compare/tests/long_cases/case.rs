//! What the long cases are made of: records with the replies that a rule gives
//! them, and the pairs of plans.

/// A case in the making: records and the replies to them.
pub struct Case {
    pub name: &'static str,
    pub input: Vec<u8>,
    pub output: Vec<u8>,
}

pub type Row = (String, String);

impl Case {
    pub fn new(name: &'static str) -> Case {
        let (input, output) = (Vec::new(), Vec::new());
        Case {
            name,
            input,
            output,
        }
    }

    /// A record and its reply, both with `|` for the tab; no reply is "".
    pub fn ask(&mut self, record: &str, reply: &str) {
        self.input.extend(record.replace('|', "\t").bytes());
        self.input.push(b'\n');
        if !reply.is_empty() {
            self.output.extend(reply.replace('|', "\t").bytes());
            self.output.push(b'\n');
        }
    }

    /// A whole plan and the reply to its E.
    pub fn load(&mut self, opening: &str, rows: &[Row], reply: &str) {
        self.ask(opening, "");
        for (from, to) in rows {
            self.ask(&format!("M|{from}|{to}"), "");
        }
        self.ask("E", reply);
    }

    /// L of a slot, whose plan is opened like this and has these pairs.
    pub fn list(&mut self, opening: &str, rows: &[Row]) {
        let pairs: String = rows
            .iter()
            .map(|(from, to)| format!("M|{from}|{to}\n"))
            .collect();
        let slot = &opening[2..3];
        self.ask(&format!("L|{slot}"), &format!("{opening}\n{pairs}E"));
    }

    /// W of a front of some from-words of this slot's plan, which has these
    /// pairs in the order of its listing.
    pub fn block(&mut self, slot: &str, front: &str, rows: &[Row]) {
        let mut lines = Vec::new();
        for (place, (from, to)) in (1..).zip(rows) {
            if from.starts_with(front) {
                lines.push(format!("B|{from}|{to}|{place}\n"));
            }
        }
        let reply = format!("{}ok|{}", lines.concat(), lines.len());
        self.ask(&format!("W|{slot}|{front}"), &reply);
    }

    /// W of the from-word at a place of this slot's plan, with a tail behind it. The
    /// pairs stand in the order of its listing.
    pub fn image(&mut self, slot: &str, place: usize, tail: &str, rows: &[Row]) {
        let (from, to) = &rows[place - 1];
        let reply = format!("ok|{to}{tail}|{place}");
        self.ask(&format!("W|{slot}|{from}{tail}"), &reply);
    }

    /// Takes the last byte 10 of the input away.
    pub fn cut(mut self) -> Case {
        self.input.pop();
        self
    }
}

pub fn row(from: &str, to: &str) -> Row {
    (from.into(), to.into())
}

pub fn of(digit: &str, count: usize) -> String {
    digit.repeat(count)
}
