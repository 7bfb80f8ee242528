//! Every text of up to so many bytes over one alphabet, judged by the product and
//! by the reference. A text is put where the one before lay in what both are lent,
//! so that nothing is made anew for each: 12 million texts of up to 6 bytes take
//! less than a minute. Promised for each text is what a case of room compares: the
//! six numbers, query and rows with their zones. Weaknesses: room only, one row,
//! no DEFINE; and a block of texts lies at the same address between the same noise.

use crate::case::{Call, Case, CALLS};
use crate::engine::{Engine, Reference};
use crate::lent::Lent;
use crate::Run;
use reference::generate::{Draft, Random};
use std::sync::atomic::Ordering;
use std::time::Instant;

pub const ALPHABET: &[u8; 15] = b"AB()|{},019?*^ ";

/// Texts longer than this would take years.
pub const LONGEST: usize = 9;

/// So many texts lie at the same address.
const BLOCK: usize = 4_096;

/// Where the text begins: behind the shape's record and the text's own header.
const BEHIND_HEADERS: usize = 10;

/// How many texts there were with each answer of the reference.
pub type Answers = [usize; 15];

impl Run<'_> {
    /// All texts of up to the length, with a line for each length.
    pub fn texts(&mut self, longest: usize, seed: u64) {
        let mut random = Random::new(seed);
        for length in 0..=longest {
            let start = Instant::now();
            let failed = self.counts.failed;
            let answers = self.texts_of(length, &mut random);
            let failed = self.counts.failed - failed;
            let passed = answers.iter().sum::<usize>() - failed;
            let seconds = start.elapsed().as_secs_f64();
            let counted = (0..).zip(answers).filter(|(_, count)| *count > 0);
            let words: Vec<String> = counted
                .map(|(answer, count)| format!("{count} with answer {answer}"))
                .collect();
            println!(
                "texts of {length} bytes: {passed} alike, {failed} different, {seconds:.1} s ({})",
                words.join(", ")
            );
        }
    }

    pub fn texts_of(&mut self, length: usize, random: &mut Random) -> Answers {
        let mut answers = [0; 15];
        let mut failed = 0;
        let mut text = vec![ALPHABET[0]; length];
        let mut digits = vec![0; length];
        let mut place = Place::new(&text, random.draw());
        for number in 0..ALPHABET.len().pow(length as u32) {
            if number % BLOCK == 0 {
                place = Place::new(&text, random.draw());
            }
            self.begin("--texts", number, || place.case(&text));
            let (answer, agrees) = place.judge(self.product, &text);
            answers[answer as usize] += 1;
            match agrees {
                true => self.counts.passed += 1,
                false => {
                    failed += 1;
                    self.differs("--texts", number, failed, &place.case(&text));
                    place = Place::new(&text, random.draw());
                }
            }
            next(&mut text, &mut digits);
        }
        answers
    }
}

/// The text that follows, as the next number follows in digits, lowest digit first.
fn next(text: &mut [u8], digits: &mut [usize]) {
    for (byte, digit) in text.iter_mut().zip(digits) {
        *digit = (*digit + 1) % ALPHABET.len();
        *byte = ALPHABET[*digit];
        if *digit > 0 {
            return;
        }
    }
}

/// What the two are lent, for texts of one length.
struct Place {
    noise: u64,
    product: Lent,
    reference: Lent,
}

impl Place {
    fn new(text: &[u8], noise: u64) -> Place {
        let lent = Lent::new(&case(text, noise).input, noise);
        Place {
            noise,
            product: lent.clone(),
            reference: lent,
        }
    }

    /// The same call by itself, with the same noise.
    fn case(&self, text: &[u8]) -> Case {
        case(text, self.noise)
    }

    /// The reference's answer, and whether the product's call was alike in all.
    fn judge(&mut self, product: &dyn Engine, text: &[u8]) -> (u64, bool) {
        let behind = BEHIND_HEADERS + text.len();
        for lent in [&mut self.product, &mut self.reference] {
            lent.query.items_mut()[BEHIND_HEADERS..behind].copy_from_slice(text);
        }
        CALLS.fetch_add(1, Ordering::Relaxed);
        let returned = product.room(&mut self.product);
        let expected = Reference.room(&mut self.reference);
        let agrees = returned == expected && self.product == self.reference;
        (expected[0], agrees)
    }
}

fn case(text: &[u8], noise: u64) -> Case {
    Case {
        call: Call::Room,
        input: Draft::new(1, text, vec![1]).with_lengths([0; 4]),
        noise,
    }
}
