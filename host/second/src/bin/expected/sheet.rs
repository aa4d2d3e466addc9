//! What is printed: each case with the reply that came and the one expected, and how many differ.

use second::Reply;

/// What is printed so far.
#[derive(Default)]
pub struct Sheet {
    text: Vec<u8>,
    cases: u64,
    differ: u64,
}

impl Sheet {
    /// Adds a case: the reply that came beside the one expected.
    pub fn replies(&mut self, name: &str, came: Reply, expected: Reply) {
        let flag = if came == expected { "" } else { " DIFFERS" };
        self.cases += 1;
        self.differ += u64::from(came != expected);
        self.line(&format!("{name}: came {}, expected {}{flag}", words(came), words(expected)));
    }

    /// Adds a line.
    pub fn line(&mut self, line: &str) {
        self.bytes(line.as_bytes());
        self.bytes(b"\n");
    }

    /// Adds bytes as they are.
    pub fn bytes(&mut self, bytes: &[u8]) {
        self.text.extend_from_slice(bytes);
    }

    /// All that is printed, with the totals, and whether no case differs.
    pub fn whole(mut self) -> (Vec<u8>, bool) {
        self.line(&format!("{} cases, {} differ", self.cases, self.differ));
        (self.text, self.differ == 0)
    }
}

fn words(reply: Reply) -> String {
    format!("{} {} {}", reply.number, reply.line, reply.count)
}

/// How many rows or bytes a reply hands out; none on a refusal.
pub fn handed_out(came: Reply) -> usize {
    if came.number == 0 {
        came.count as usize
    } else {
        0
    }
}
