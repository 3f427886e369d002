//! Holds `access_run` and `access_inspect`, as they are linked, against the
//! independent implementation: `face [--runs N] [--images M] [--seed S]`.
//!
//! - N generated schedules, cut at line ends into 1 to 6 pieces, the image
//!   carried from call to call: the number, the answers, the image and the two
//!   lengths of every piece; the answers together, as `replay` has them and by
//!   the definition of causal order.
//! - Lent buffers to the byte, one short (refused, and as found) and longer.
//! - M images (1.3 N if M is not given), damaged in every way, worn or odd: the
//!   verdict, and a run that goes on from what is accepted.
//! - The five numbers of `access_inspect` for each of these, for the good image
//!   that it was made from, and for every image that a piece left.
//! - The wrapper's own functions beside the bare calls.
//!
//! A difference is printed with the shortest schedule and the fewest bytes
//! that still show it; the exit status is then 1. From 1,000 schedules on, and
//! from 1,000 images on, it is 1 too if a class of them that has to be met was not.

mod calls;
mod counts;
mod findings;
mod images;
mod pieces;
mod wrapper;
#[cfg(test)]
mod wrong;

use access_table::raw::{access_inspect, access_run};
use calls::Call;
use counts::Counts;
use evidence::gen::{schedule, Kind, Rng};
use findings::Inspect;
use images::{Sample, Way};
use pieces::{Case, Depth};
use std::process::ExitCode;

/// A schedule of more bytes is a long one.
const LONG: usize = 16_384;

/// So many schedules have to meet every class of schedules, and so many images
/// every class of images.
const FULL: usize = 1_000;

fn main() -> ExitCode {
    let args: Vec<String> = std::env::args().skip(1).collect();
    let Some(([runs, images], seed)) = options(&args) else {
        eprintln!("usage: face [--runs N] [--images M] [--seed S]");
        return ExitCode::from(2);
    };
    let mut counts = Counts::default();
    let linked = Library {
        call: access_run,
        inspect: access_inspect,
        wrapped: true,
    };
    if let Err(report) = all(linked, [runs, images], seed, &mut counts) {
        eprint!("{report}");
        return ExitCode::FAILURE;
    }
    println!("{}", counts.detail());
    let mut missing = Vec::new();
    if runs >= FULL {
        missing.extend(counts.missing_of_schedules());
    }
    if images >= FULL {
        missing.extend(counts.missing_of_images());
    }
    if !missing.is_empty() {
        eprintln!("not met: {}", missing.join(", "));
        return ExitCode::FAILURE;
    }
    println!("{}: no difference", counts.line());
    ExitCode::SUCCESS
}

/// The counts of schedules and images, and the seed; each may be left out.
fn options(args: &[String]) -> Option<([usize; 2], u64)> {
    let (mut runs, mut images, mut seed) = (2_000, None, 1);
    for pair in args.chunks(2) {
        match pair {
            [option, value] if option == "--runs" => runs = value.parse().ok()?,
            [option, value] if option == "--images" => images = Some(value.parse().ok()?),
            [option, value] if option == "--seed" => seed = value.parse().ok()?,
            _ => return None,
        }
    }
    Some(([runs, images.unwrap_or(runs * 13 / 10)], seed))
}

/// What is held: the two calls, and whether the wrapper is held beside them.
#[derive(Clone, Copy)]
struct Library {
    call: Call,
    inspect: Inspect,
    wrapped: bool,
}

impl Library {
    /// Holds a case; the wrapper only where every sort of buffer is tried.
    fn hold(self, case: &Case, depth: Depth, counts: &mut Counts) -> Result<(), String> {
        pieces::hold(self.call, self.inspect, case, depth, counts)?;
        if self.wrapped && depth != Depth::Plain {
            wrapper::hold(case)?;
        }
        Ok(())
    }

    /// Holds the verdict on an image, and what is found in it.
    fn hold_image(self, image: &[u8], counts: &mut Counts) -> Result<(), String> {
        images::hold(self.call, image, counts)?;
        findings::hold(self.inspect, image, &mut counts.findings)?;
        if self.wrapped {
            wrapper::hold_image(image)?;
        }
        Ok(())
    }

    /// What is wrong with a case, if anything is, with every sort of buffer.
    fn fault(self, case: &Case) -> Option<String> {
        self.hold(case, Depth::All, &mut Counts::default()).err()
    }

    /// The shortest schedule that shows something wrong, to be read.
    fn shortest(self, case: &Case) -> String {
        let short = case.shortest(&|case| self.fault(case));
        let now = self.fault(&short).unwrap_or_default();
        format!(
            "the shortest schedule that shows one: {now}\n{}",
            short.show()
        )
    }
}

/// All schedules and all images; what is wrong, to be read.
fn all(
    library: Library,
    [schedules, images]: [usize; 2],
    seed: u64,
    counts: &mut Counts,
) -> Result<(), String> {
    for run in 0..schedules {
        one_schedule(library, run, seed, counts)?;
        progress(run + 1, schedules, counts);
    }
    let ways: Vec<Way> = Way::all().collect();
    for at in 0..images {
        let seed = seed.wrapping_add(at as u64);
        one_image(library, ways[at % ways.len()], seed, counts)?;
        progress(at + 1, images, counts);
    }
    Ok(())
}

fn progress(done: usize, of: usize, counts: &Counts) {
    if done.is_multiple_of(500) && done < of {
        eprintln!("{}, no difference so far", counts.line());
    }
}

/// A generated schedule in pieces.
fn one_schedule(
    library: Library,
    run: usize,
    seed: u64,
    counts: &mut Counts,
) -> Result<(), String> {
    let kind = Kind::ALL[run % Kind::ALL.len()];
    let seed = seed.wrapping_add(run as u64);
    let text = schedule(seed, kind, 20 + run % 400);
    let mut rng = Rng::new(seed ^ 0xface_0000_0000_0000);
    // Half of those that go by their size are left whole.
    let whole = kind == Kind::Size && rng.chance(1, 2);
    let case = Case::cut(Vec::new(), &text, if whole { 1 } else { 6 }, &mut rng);
    *counts.kinds.entry(kind.name()).or_default() += 1;
    // Every sort of buffer for one piece; of a long schedule only now and then.
    let depth = match text.len() <= LONG || rng.chance(1, 4) {
        true => Depth::One(rng.below(case.pieces.len())),
        false => Depth::Plain,
    };
    let held = library.hold(&case, depth, counts);
    held.map_err(|fault| {
        let kind = kind.name();
        let shortest = library.shortest(&case);
        format!(
            "a difference at run {run} (kind {kind}, schedule seed {seed}): {fault}\n{shortest}"
        )
    })
}

/// An image, and a run from it.
fn one_image(library: Library, way: Way, seed: u64, counts: &mut Counts) -> Result<(), String> {
    let sample = Sample::new(way, seed);
    sample.count(counts)?;
    let held = library.hold_image(&sample.image, counts);
    held.map_err(|fault| {
        let fault_of = |image: &[u8]| library.hold_image(image, &mut Counts::default()).err();
        let short = sample.shortest(&fault_of);
        let (now, shown) = (fault_of(&short.image).unwrap_or_default(), short.show());
        format!("a difference in the verdict on an image: {fault}\nthe fewest bytes that show one: {now}\n{shown}")
    })?;
    let found = findings::hold(library.inspect, &sample.good, &mut counts.findings);
    found.map_err(|fault| {
        let shown = sample.undamaged().show();
        format!("a difference in what is found in a good image: {fault}\n{shown}")
    })?;
    let case = sample.going_on(20 + (seed % 60) as usize);
    let held = library.hold(&case, Depth::One(0), counts);
    held.map_err(|fault| {
        let which = match case.start == sample.image {
            true => "the image",
            false => "the good image",
        };
        let (shown, shortest) = (sample.show(), library.shortest(&case));
        format!("a difference behind {which} of: {fault}\n{shown}{shortest}")
    })
}
