//! One call of `access_run`, held against what it has to give.

use access_table::{answers_bound, MAX_IMAGE};

/// The shape of the call. The program takes the linked library; its own tests
/// also take wrong ones.
pub type Call = fn(&[u8], &[u8], &mut [u8], &mut [u8], &mut [u64]) -> u64;

/// What a call has to give.
#[derive(Clone, Debug, PartialEq, Eq)]
pub enum Expect {
    /// This number, and every buffer as found.
    Refused(u64),
    /// 0, these answers, and this image (empty: no table).
    Done { answers: Vec<u8>, image: Vec<u8> },
}

/// How many calls of each sort were held.
#[derive(Clone, Copy, Debug, Default, PartialEq, Eq)]
pub struct Tally {
    /// Room to the byte.
    pub exact: usize,
    /// `answers` one byte short.
    pub short_answers: usize,
    /// `image_out` one byte short.
    pub short_image: usize,
    /// `lengths` one or two numbers short.
    pub short_lengths: usize,
    /// More room than is needed.
    pub longer: usize,
    /// Refused for the image or for the schedule's length.
    pub refused: usize,
}

impl Tally {
    /// All calls.
    pub fn all(&self) -> usize {
        self.exact
            + self.short_answers
            + self.short_image
            + self.short_lengths
            + self.longer
            + self.refused
    }
}

/// A call's input, and what it has to give.
pub struct Held<'a> {
    pub call: Call,
    pub image: &'a [u8],
    pub schedule: &'a [u8],
    pub expect: &'a Expect,
}

impl Held<'_> {
    /// Holds one call with room to the byte, or with room enough if it has to
    /// be refused.
    pub fn plain(&self, tally: &mut Tally) -> Result<(), String> {
        match self.expect {
            Expect::Refused(number) => {
                tally.refused += 1;
                // Room enough, so that only what has to be refused is.
                let answers = answers_bound(self.schedule.len());
                self.refused([answers, MAX_IMAGE, 2], *number)
            }
            Expect::Done { answers, image } => {
                tally.exact += 1;
                self.done([answers.len(), image.len(), 2], answers, image)
            }
        }
    }

    /// As [`Held::plain`], and then every buffer too short, in turn and all at
    /// once, and every one longer.
    pub fn thorough(&self, tally: &mut Tally) -> Result<(), String> {
        self.plain(tally)?;
        let (answers, image) = match self.expect {
            Expect::Refused(number) => {
                tally.refused += 1;
                return self.refused([0, 0, 0], *number);
            }
            Expect::Done { answers, image } => (answers, image),
        };
        let (a, i) = (answers.len(), image.len());
        if a > 0 {
            tally.short_answers += 1;
            self.refused([a - 1, i, 2], 14)?;
        }
        if i > 0 {
            tally.short_image += 1;
            self.refused([a, i - 1, 2], 14)?;
        }
        for short in [1, 0] {
            tally.short_lengths += 1;
            self.refused([a, i, short], 14)?;
        }
        if a > 0 && i > 0 {
            self.refused([a - 1, i - 1, 1], 14)?;
        }
        for more in [1, 37] {
            tally.longer += 1;
            self.done([a + more, i + more, 2 + more], answers, image)?;
        }
        Ok(())
    }

    /// The call has to give this number and leave its buffers, of these
    /// lengths, as found.
    pub fn refused(&self, lent: [usize; 3], number: u64) -> Result<(), String> {
        let found = Lent::of(lent).after(self);
        self.number(&found, lent, number)?;
        found
            .as_found([0, 0, 0])
            .map_err(|what| format!("refused with {number}, lent {lent:?}: {what} is not as found"))
    }

    /// The call has to give 0 and to write these answers and this image to the
    /// front of its buffers, and their lengths.
    pub fn done(&self, lent: [usize; 3], answers: &[u8], image: &[u8]) -> Result<(), String> {
        let found = Lent::of(lent).after(self);
        self.number(&found, lent, 0)?;
        let (a, i) = (answers.len(), image.len());
        if found.answers[..a] != *answers {
            return Err(answers_differ(&found.answers[..a], answers));
        }
        if found.image[..i] != *image {
            return Err(images_differ(&found.image[..i], image));
        }
        let lengths = [a as u64, i as u64];
        if found.lengths[..2] != lengths {
            return Err(format!(
                "lengths are {:?} in place of {lengths:?}, lent {lent:?}",
                &found.lengths[..2]
            ));
        }
        found
            .as_found([a, i, 2])
            .map_err(|what| format!("lent {lent:?}: what lies behind in {what} is not as found"))
    }

    fn number(&self, found: &Lent, lent: [usize; 3], number: u64) -> Result<(), String> {
        if found.number == number {
            return Ok(());
        }
        let found = found.number;
        Err(format!(
            "the number is {found} in place of {number}, lent {lent:?}"
        ))
    }
}

/// Lent buffers, filled with a pattern, and the number of the call after it.
struct Lent {
    answers: Vec<u8>,
    image: Vec<u8>,
    lengths: Vec<u64>,
    number: u64,
}

impl Lent {
    fn of([answers, image, lengths]: [usize; 3]) -> Lent {
        Lent {
            answers: (0..answers).map(pattern).collect(),
            image: (0..image).map(pattern).collect(),
            lengths: (0..lengths).map(pattern_number).collect(),
            number: 0,
        }
    }

    fn after(mut self, held: &Held) -> Lent {
        self.number = (held.call)(
            held.image,
            held.schedule,
            &mut self.answers,
            &mut self.image,
            &mut self.lengths,
        );
        self
    }

    /// Which buffer has, from its place on, something else than the pattern.
    fn as_found(&self, from: [usize; 3]) -> Result<(), &'static str> {
        let bytes = |buffer: &[u8], from: usize| {
            let mut rest = buffer.iter().enumerate().skip(from);
            rest.all(|(at, &byte)| byte == pattern(at))
        };
        let mut lengths = self.lengths.iter().enumerate().skip(from[2]);
        if !bytes(&self.answers, from[0]) {
            Err("answers")
        } else if !bytes(&self.image, from[1]) {
            Err("image_out")
        } else if !lengths.all(|(at, &length)| length == pattern_number(at)) {
            Err("lengths")
        } else {
            Ok(())
        }
    }
}

/// Bytes that no answer has, and that an image has rarely.
fn pattern(at: usize) -> u8 {
    0x80 | (at * 37 + at / 128) as u8
}

fn pattern_number(at: usize) -> u64 {
    0xfeed_0000_0000_0000 + at as u64
}

fn answers_differ(found: &[u8], expected: &[u8]) -> String {
    let lines = |text: &[u8]| -> Vec<String> {
        let lines = text.split(|&b| b == b'\n');
        lines.map(|l| l.escape_ascii().to_string()).collect()
    };
    let (found, expected) = (lines(found), lines(expected));
    let at = (found.iter().zip(&expected)).position(|(f, e)| f != e);
    let at = at.unwrap_or(found.len().min(expected.len()));
    let line = |list: &[String]| list.get(at).cloned().unwrap_or_default();
    format!(
        "the answer to line {} is \"{}\" in place of \"{}\"",
        at + 1,
        line(&found),
        line(&expected)
    )
}

fn images_differ(found: &[u8], expected: &[u8]) -> String {
    let at = (found.iter().zip(expected)).position(|(f, e)| f != e);
    let at = at.unwrap_or_default();
    format!(
        "the image has {} in place of {} at byte {} of block {}",
        found[at],
        expected[at],
        at % 512,
        at / 512
    )
}
