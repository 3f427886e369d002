//! What a run consisted of, so that an empty test is seen.

use crate::calls::Tally;
use crate::findings;
use crate::images::Way;
use evidence::causal::Holds;
use evidence::gen::Kind;
use std::collections::BTreeMap;

/// The classes of answer lines.
const ANSWERS: [&str; 23] = [
    "N",
    "R set",
    "R -",
    "W",
    "H first",
    "H later",
    "H five digits",
    "A one",
    "A more",
    "T yes",
    "T no",
    "T unknown",
    "E 1",
    "E 2",
    "E 3",
    "E 4",
    "E 5",
    "E 6",
    "E 7",
    "E 8",
    "E 9",
    "E 10",
    "E 11",
];

/// All that is counted.
#[derive(Clone, Debug, Default)]
pub struct Counts {
    /// Schedules of each kind.
    pub kinds: BTreeMap<&'static str, usize>,
    /// Pieces run, and lines in those that were accepted.
    pub pieces: usize,
    pub lines: usize,
    /// Answer lines of each class.
    pub answers: [usize; ANSWERS.len()],
    /// Runs whose answers were checked by the definition of causal order.
    pub causal: usize,
    /// What their held answers name.
    pub holds: Holds,
    /// Accepted pieces that began with no table, and from an image.
    pub from_nothing: usize,
    pub from_image: usize,
    /// Images between two pieces with a held write, and with 64 open.
    pub held_carried: usize,
    pub full_carried: usize,
    /// Writes that were held in an image and applied in the piece behind it.
    pub released: usize,
    /// Schedules that made a table of 9 to 16 desks; pieces that began from one,
    /// and those of them with 64 open writes.
    pub many: usize,
    pub many_carried: usize,
    pub many_full: usize,
    /// Pieces of 65,536 bytes, of 65,537, and longer ones.
    pub longest: usize,
    pub one_over: usize,
    pub over: usize,
    /// Images by verdict.
    pub verdicts: Verdicts,
    /// Accepted images of edition 2, and refused ones with a block whose edition
    /// is not that of their n.
    pub second: usize,
    pub unfit: usize,
    /// Images by the ways of damage, and those of them whose length and checks are
    /// right.
    pub damaged: usize,
    pub checks_right: usize,
    /// Images of each way.
    pub ways: BTreeMap<String, usize>,
    /// Calls of `access_run`, by what was lent.
    pub calls: Tally,
    /// Calls of `access_inspect`, by what was lent.
    pub findings: findings::Tally,
}

/// Images by verdict.
#[derive(Clone, Copy, Debug, Default, PartialEq, Eq)]
pub struct Verdicts {
    /// 15: no bytes, which are no table yet to `access_run`; and all others.
    pub empty: usize,
    pub cut: usize,
    /// 12 at block 0, at the last block, and between them.
    pub check_first: usize,
    pub check_last: usize,
    pub check_between: usize,
    /// 13 at block 0, at a later block, and at the block count.
    pub stray_first: usize,
    pub stray_later: usize,
    pub rule: usize,
    pub accepted: usize,
}

impl Verdicts {
    /// Refused with 12, wherever.
    fn damaged(&self) -> usize {
        self.check_first + self.check_last + self.check_between
    }

    /// Refused with 13, wherever.
    fn broken(&self) -> usize {
        self.stray_first + self.stray_later + self.rule
    }
}

impl Counts {
    /// Counts answer lines. A line that is none is a fault.
    pub fn answers(&mut self, text: &[u8]) -> Result<(), String> {
        for line in text.split_inclusive(|&b| b == b'\n') {
            let class = class(line)
                .ok_or_else(|| format!("\"{}\" is no answer line", line.escape_ascii()))?;
            self.lines += 1;
            self.answers[class] += 1;
        }
        Ok(())
    }

    /// All schedules.
    pub fn schedules(&self) -> usize {
        self.kinds.values().sum()
    }

    /// All images.
    pub fn images(&self) -> usize {
        let v = &self.verdicts;
        v.empty + v.cut + v.damaged() + v.broken() + v.accepted
    }

    /// The classes of schedules that were not met, and have to be in a run of full
    /// length.
    pub fn missing_of_schedules(&self) -> Vec<String> {
        let mut missing: Vec<String> = Vec::new();
        let answers = ANSWERS.iter().zip(self.answers);
        missing.extend((answers.filter(|a| a.1 == 0)).map(|a| format!("an answer {}", a.0)));
        let kinds = Kind::ALL.iter().map(|k| k.name());
        missing
            .extend((kinds.filter(|k| !self.kinds.contains_key(k))).map(|k| format!("kind {k}")));
        let counted = [
            ("a piece from no table", self.from_nothing),
            ("a piece from an image", self.from_image),
            ("a held write carried over a reload", self.held_carried),
            ("a held write applied after a reload", self.released),
            ("64 open writes carried over a reload", self.full_carried),
            ("a run with 9 to 16 desks", self.many),
            ("9 to 16 desks carried over a reload", self.many_carried),
            ("64 open writes of 9 to 16 desks carried", self.many_full),
            ("a schedule of 65,536 bytes", self.longest),
            ("a schedule of 65,537 bytes", self.one_over),
            ("a longer schedule", self.over),
            ("a run checked for causal order", self.causal),
            ("room to the byte", self.calls.exact),
            ("answers one short", self.calls.short_answers),
            ("image_out one short", self.calls.short_image),
            ("lengths one short", self.calls.short_lengths),
            ("longer buffers", self.calls.longer),
        ];
        missing.extend((counted.iter().filter(|c| c.1 == 0)).map(|c| c.0.to_string()));
        let holds = self.holds.rare(1).into_iter();
        missing.extend(holds.map(|class| format!("a held answer with {class}")));
        missing
    }

    /// The same of images.
    pub fn missing_of_images(&self) -> Vec<String> {
        let ways = Way::all().map(|w| w.to_string());
        let ways = ways.filter(|w| !self.ways.contains_key(w));
        let mut missing: Vec<String> = ways.map(|w| format!("way {w}")).collect();
        let v = &self.verdicts;
        let counted = [
            ("an image of no bytes", v.empty),
            ("an image refused with 15", v.cut),
            ("an image refused with 12 at block 0", v.check_first),
            (
                "an image refused with 12 at a middle block",
                v.check_between,
            ),
            ("an image refused with 12 at the last block", v.check_last),
            ("an image refused with 13 at block 0", v.stray_first),
            ("an image refused with 13 at a later block", v.stray_later),
            ("an image refused with 13 at the block count", v.rule),
            ("an accepted image", v.accepted),
            ("an accepted image of edition 2", self.second),
            ("an image refused for its edition", self.unfit),
            ("a finding of five numbers", self.findings.exact),
            ("a finding too short", self.findings.short),
            ("a longer finding", self.findings.longer),
        ];
        missing.extend((counted.iter().filter(|c| c.1 == 0)).map(|c| c.0.to_string()));
        missing
    }

    /// The counts in detail, a line to a subject.
    pub fn detail(&self) -> String {
        let list = |pairs: Vec<(String, usize)>| -> String {
            let pairs: Vec<String> = pairs.iter().map(|(n, c)| format!("{n} {c}")).collect();
            pairs.join(", ")
        };
        let kinds = self.kinds.iter().map(|(k, c)| (k.to_string(), *c));
        let answers = ANSWERS.iter().zip(self.answers);
        let answers = answers.map(|(a, c)| (a.to_string(), c));
        let fewest = self.ways.iter().min_by_key(|w| w.1);
        let (fewest, count) = fewest.map_or(("none", 0), |(way, count)| (way, *count));
        let (c, v, f) = (&self.calls, &self.verdicts, &self.findings);
        format!(
            "schedules: {}\n\
             answers: {}\n\
             causal order: {}\n\
             reloads: {} pieces from no table, {} from an image; {} images with a held write, {} such writes applied behind it, {} images with 64 open\n\
             9 to 16 desks: {} schedules, {} pieces from an image, {} of them with 64 open; {} images of edition 2 accepted, {} refused for an edition\n\
             sizes: {} pieces of 65,536 bytes, {} of 65,537, {} longer\n\
             calls: {}; {} with room to the byte, {} longer, one short: {} answers, {} image_out, {} lengths\n\
             images: {} by the ways of damage, {} of them with checks right; {} ways, fewest {} ({})\n\
             places: 12 at block 0 {}, between {}, at the last {}; 13 at block 0 {}, later {}, at the block count {}\n\
             findings: {} in five numbers, {} in fewer, {} in more",
            list(kinds.collect()),
            list(answers.collect()),
            self.holds,
            self.from_nothing,
            self.from_image,
            self.held_carried,
            self.released,
            self.full_carried,
            self.many,
            self.many_carried,
            self.many_full,
            self.second,
            self.unfit,
            self.longest,
            self.one_over,
            self.over,
            c.all(),
            c.exact,
            c.longer,
            c.short_answers,
            c.short_image,
            c.short_lengths,
            self.damaged,
            self.checks_right,
            self.ways.len(),
            fewest,
            count,
            v.check_first,
            v.check_between,
            v.check_last,
            v.stray_first,
            v.stray_later,
            v.rule,
            f.exact,
            f.short,
            f.longer,
        )
    }

    /// The counts in one line.
    pub fn line(&self) -> String {
        format!(
            "{} schedules, {} pieces, {} lines ({} runs by the definition of causal order); {} images: {} refused with 15, {} with 12, {} with 13, {} accepted, {} of no bytes",
            self.schedules(),
            self.pieces,
            self.lines,
            self.causal,
            self.images(),
            self.verdicts.cut,
            self.verdicts.damaged(),
            self.verdicts.broken(),
            self.verdicts.accepted,
            self.verdicts.empty
        )
    }
}

/// The class of an answer line.
fn class(line: &[u8]) -> Option<usize> {
    let line = line.strip_suffix(b"\n")?;
    let name = match line {
        b"N" => "N",
        b"R -" => "R -",
        [b'R', ..] => "R set",
        [b'W', ..] => "W",
        [b'H', b' ', name @ ..] => hold(name)?,
        [b'A', names @ ..] if names.iter().filter(|&&b| b == b' ').count() > 1 => "A more",
        [b'A', ..] => "A one",
        other => std::str::from_utf8(other).ok()?,
    };
    ANSWERS.iter().position(|class| *class == name)
}

/// The class of a held answer, by the number of the write that it names.
fn hold(name: &[u8]) -> Option<&'static str> {
    let (desk, number) = std::str::from_utf8(name).ok()?.split_once('.')?;
    let (1..=16, number) = (desk.parse::<u8>().ok()?, number.parse::<u16>().ok()?) else {
        return None;
    };
    match number {
        0 => None,
        1 => Some("H first"),
        2..=9_999 => Some("H later"),
        10_000.. => Some("H five digits"),
    }
}

#[cfg(test)]
mod tests {
    use super::Counts;

    #[test]
    fn a_line_that_is_no_answer_is_a_fault() {
        for good in ["H 1.1\n", "H 16.65535\n", "H 2.17\nE 8\n"] {
            assert_eq!(Counts::default().answers(good.as_bytes()), Ok(()));
        }
        for bad in [
            "H", "H 1", "H 1.", "H .1", "H 0.1", "H 17.1", "H 1.0", "H 1.1.1", "E 12",
        ] {
            let line = format!("{bad}\n");
            assert!(Counts::default().answers(line.as_bytes()).is_err(), "{bad}");
        }
    }
}
