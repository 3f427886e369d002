//! Damaged, worn and odd images: the verdict, and the table behind it.

use crate::calls::{Call, Expect, Held};
use crate::counts::Counts;
use crate::pieces::{self, image_of, Case};
use evidence::gen::{damage, odd_image, schedule_from, table, worn_image, Damage, Rng};
use evidence::image::{self, check_of, Edition, Fault, BLOCK, CHECK, PAYLOAD};
use evidence::text::MAX_INPUT;
use std::fmt;

/// Where an image comes from.
#[derive(Clone, Copy, Debug, PartialEq, Eq)]
pub enum Way {
    /// A good image, damaged.
    Damaged(Damage),
    /// A good image with numbers near 65,535.
    Worn,
    /// A good image that most likely no schedule gives.
    Odd,
}

impl Way {
    /// All ways.
    pub fn all() -> impl Iterator<Item = Way> {
        let damaged = Damage::ALL.into_iter().map(Way::Damaged);
        damaged.chain([Way::Worn, Way::Odd])
    }
}

impl fmt::Display for Way {
    fn fmt(&self, f: &mut fmt::Formatter<'_>) -> fmt::Result {
        match self {
            Way::Damaged(damage) => write!(f, "{damage:?}"),
            Way::Worn => write!(f, "worn"),
            Way::Odd => write!(f, "odd"),
        }
    }
}

/// An image, and the good one that it was made from.
#[derive(Clone, Debug)]
pub struct Sample {
    pub way: Way,
    pub seed: u64,
    pub good: Vec<u8>,
    pub image: Vec<u8>,
    /// What a load has to answer by what was done, if that tells it.
    pub foretold: Option<Result<(), Fault>>,
}

impl Sample {
    /// The sample of a way and a seed.
    pub fn new(way: Way, seed: u64) -> Sample {
        let mut rng = Rng::new(seed);
        let what = match way {
            Way::Worn => return Sample::as_is(way, seed, worn_image(rng.bits())),
            Way::Odd => return Sample::as_is(way, seed, odd_image(rng.bits())),
            Way::Damaged(what) => what,
        };
        // Not every image has a place for every damage.
        loop {
            let good = match rng.below(4) {
                0 => worn_image(rng.bits()),
                1 => odd_image(rng.bits()),
                _ => image_of(&table(rng.bits())),
            };
            if let Some(damaged) = damage(&good, what, &mut rng) {
                return Sample {
                    way,
                    seed,
                    good,
                    image: damaged.image,
                    foretold: damaged.foretold,
                };
            }
        }
    }

    fn as_is(way: Way, seed: u64, image: Vec<u8>) -> Sample {
        Sample {
            way,
            seed,
            good: image.clone(),
            image,
            foretold: Some(Ok(())),
        }
    }

    /// The good image as a sample of its own.
    pub fn undamaged(&self) -> Sample {
        Sample {
            image: self.good.clone(),
            foretold: Some(Ok(())),
            ..self.clone()
        }
    }

    /// A sample that shows a fault with fewer bytes changed, if this one does:
    /// bytes are put back as long as there is one. Checks are put right, if all of
    /// them are in this one; else they are bytes as all others.
    pub fn shortest(&self, fault: &dyn Fn(&[u8]) -> Option<String>) -> Sample {
        if self.image.len() != self.good.len() {
            return self.clone();
        }
        let sealed = self.image.chunks_exact(BLOCK).all(check_right);
        let image_with = |changed: &[usize]| {
            let mut image = self.good.clone();
            for &at in changed {
                image[at] = self.image[at];
            }
            if sealed {
                put_checks_right(&mut image);
            }
            image
        };
        let changed: Vec<usize> = (0..self.good.len())
            .filter(|&at| self.good[at] != self.image[at] && !(sealed && at % BLOCK >= CHECK))
            .collect();
        let changed = pieces::shrink(changed, &mut |changed| {
            Some(fault(&image_with(changed)).is_some())
        });
        Sample {
            image: image_with(&changed),
            foretold: None,
            ..self.clone()
        }
    }

    /// The way, the seed and the bytes changed, to be read.
    pub fn show(&self) -> String {
        let mut out = format!(
            "an image of {} bytes, way {}, seed {}",
            self.image.len(),
            self.way,
            self.seed
        );
        if self.image.len() != self.good.len() {
            out += &format!(" (made from one of {})", self.good.len());
        }
        let pairs = self.good.iter().zip(&self.image).enumerate();
        let changed: Vec<String> = pairs
            .filter(|(_, (good, image))| good != image)
            .map(|(at, (good, image))| {
                format!(
                    "    block {} byte {}: {good} became {image}",
                    at / BLOCK,
                    at % BLOCK
                )
            })
            .collect();
        out += &format!("; {} bytes changed\n", changed.len());
        // Behind a block too many or too few every byte may be another.
        let shown = if self.image.len() == self.good.len() {
            40
        } else {
            8
        };
        for line in changed.iter().take(shown) {
            out += &format!("{line}\n");
        }
        if changed.len() > shown {
            out += "    and so on\n";
        }
        out
    }

    /// Traffic that goes on from the image, or from the good one that it was
    /// made from if it is refused.
    pub fn going_on(&self, lines: usize) -> Case {
        let image = match image::load(&self.image) {
            Ok(_) => &self.image,
            Err(_) => &self.good,
        };
        let table = image::load(image).expect("a good image is accepted");
        let mut rng = Rng::new(self.seed ^ 0x90_1111);
        let text = schedule_from(&table, rng.bits(), lines);
        Case::cut(image.clone(), &text, 3, &mut rng)
    }

    /// Counts the sample by its way and verdict. A verdict of the independent
    /// implementation that is not the foretold one is a fault.
    pub fn count(&self, counts: &mut Counts) -> Result<(), String> {
        *counts.ways.entry(self.way.to_string()).or_default() += 1;
        let damaged = matches!(self.way, Way::Damaged(_));
        counts.damaged += usize::from(damaged);
        let verdict = image::load(&self.image).map(drop);
        if self.foretold.is_some_and(|foretold| foretold != verdict) {
            let (foretold, shown) = (self.foretold, self.show());
            return Err(format!(
                "the independent implementation says {verdict:?}, and {foretold:?} is foretold of\n{shown}"
            ));
        }
        let blocks = self.image.len() / BLOCK;
        let verdicts = &mut counts.verdicts;
        match verdict {
            Err(Fault::WrongLength) if self.image.is_empty() => verdicts.empty += 1,
            Err(Fault::WrongLength) => verdicts.cut += 1,
            Err(Fault::Check(0)) => verdicts.check_first += 1,
            Err(Fault::Check(place)) if place + 1 < blocks => verdicts.check_between += 1,
            Err(Fault::Check(_)) => verdicts.check_last += 1,
            Err(Fault::Rule(0)) => verdicts.stray_first += 1,
            Err(Fault::Rule(place)) if place < blocks => verdicts.stray_later += 1,
            Err(Fault::Rule(_)) => verdicts.rule += 1,
            Ok(()) => verdicts.accepted += 1,
        }
        match verdict {
            Ok(()) => counts.second += usize::from(self.image[1] == 2),
            Err(Fault::Rule(_)) => {
                counts.unfit += usize::from(editions(&self.image).any(|fits| !fits));
            }
            Err(_) => return Ok(()),
        }
        counts.checks_right += usize::from(damaged);
        Ok(())
    }
}

/// The verdict on an image as `access_run` takes it: no bytes are no table.
pub fn verdict(image: &[u8]) -> Result<(), Fault> {
    if image.is_empty() {
        return Ok(());
    }
    image::load(image).map(drop)
}

/// Holds the verdict on an image: by an empty schedule, which hands an
/// accepted image back; and where it is refused, before all that gives 14.
pub fn hold(call: Call, image: &[u8], counts: &mut Counts) -> Result<(), String> {
    let expect = match verdict(image) {
        Ok(()) => Expect::Done {
            answers: Vec::new(),
            image: image.to_vec(),
        },
        Err(fault) => Expect::Refused(fault.refusal().number().into()),
    };
    let held = |schedule| Held {
        call,
        image,
        schedule,
        expect: &expect,
    };
    held(b"").thorough(&mut counts.calls)?;
    if let Expect::Refused(number) = expect {
        held(b"N 2 2\nR 1 1\n").plain(&mut counts.calls)?;
        let long = [b'\n'; MAX_INPUT + 1];
        counts.calls.refused += 1;
        held(&long).refused([700, 0, 2], number)?;
    }
    Ok(())
}

/// Of each block, whether its edition is that of the image's n.
fn editions(image: &[u8]) -> impl Iterator<Item = bool> + '_ {
    let edition = Edition::of(image[PAYLOAD].into()).number;
    image
        .chunks_exact(BLOCK)
        .map(move |block| block[1] == edition)
}

fn check_right(block: &[u8]) -> bool {
    block[CHECK..] == check_of(block).to_le_bytes()
}

/// Makes the check of every block that of its bytes.
pub fn put_checks_right(image: &mut [u8]) {
    for block in image.chunks_exact_mut(BLOCK) {
        let check = check_of(block);
        block[CHECK..].copy_from_slice(&check.to_le_bytes());
    }
}
