//! The answer of a command.

const MOST_DIGITS: usize = 20;

/// The output of a command, and whether its answer is a no.
#[derive(Default)]
pub struct Answer {
    pub text: Vec<u8>,
    pub is_no: bool,
}

impl Answer {
    pub fn no(text: &str) -> Answer {
        Answer { text: text.into(), is_no: true }
    }

    pub fn push(&mut self, words: &str) {
        self.text.extend_from_slice(words.as_bytes());
    }

    /// Appends a text, and marks the answer as a no.
    pub fn push_no(&mut self, words: &str) {
        self.is_no = true;
        self.push(words);
    }

    /// Appends the digits of a number. It does not use `write!`, which is slower: a replay has two numbers in each
    /// line.
    pub fn push_number(&mut self, mut number: u64) {
        let mut digits = [0; MOST_DIGITS];
        let mut first = MOST_DIGITS;
        loop {
            first -= 1;
            digits[first] = b'0' + (number % 10) as u8;
            number /= 10;
            if number == 0 {
                break;
            }
        }
        self.text.extend_from_slice(&digits[first..]);
    }
}
