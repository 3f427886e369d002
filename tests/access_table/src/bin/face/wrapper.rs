//! The wrapper's own functions, held against the independent implementation.

use crate::calls::Expect;
use crate::images::verdict;
use crate::pieces::{expected, Case};
use access_table::{answers_bound, inspect, Finding, Table};
use evidence::image::{self, Fault, BLOCK};
use evidence::text::Session;

/// A `Table` that goes through the pieces of a case.
pub fn hold(case: &Case) -> Result<(), String> {
    let (mut session, mut table) = match image::load(&case.start) {
        Ok(table) => (Session::with_table(table), Table::load(&case.start)),
        Err(_) => (Session::new(), Ok(Table::new())),
    };
    let table = table.as_mut().map_err(|r| format!("Table::load: {r}"))?;
    for (at, piece) in case.pieces.iter().enumerate() {
        let before = table.clone();
        let found = table.run(piece);
        let same = match expected(&mut session, piece) {
            Expect::Refused(number) => {
                found.map_err(|r| r.number()) == Err(number) && *table == before
            }
            Expect::Done { answers, image } => {
                answers.len() <= answers_bound(piece.len())
                    && found == Ok(answers)
                    && table.image().unwrap_or_default() == image
            }
        };
        if !same {
            return Err(format!("piece {}: Table::run gives something else", at + 1));
        }
    }
    Ok(())
}

/// `Table::load` of an image, and `inspect`. No bytes are no image to either.
pub fn hold_image(image: &[u8]) -> Result<(), String> {
    let found = Table::load(image);
    let same = match verdict(image) {
        Ok(()) if image.is_empty() => found.map_err(|r| r.number()) == Err(15),
        Ok(()) => found.is_ok_and(|table| table.image() == Some(image)),
        Err(fault) => found.map_err(|r| r.number()) == Err(fault.refusal().number().into()),
    };
    if !same {
        return Err("Table::load gives something else".into());
    }
    let blocks = image.len() / BLOCK;
    let finding = match image::load(image) {
        Ok(table) => Finding::Table {
            desks: table.desks().into(),
            cells: table.cells().into(),
            open: table.open_count(),
        },
        Err(Fault::WrongLength) => Finding::Cut { bytes: image.len() },
        Err(Fault::Check(block)) => Finding::Damaged { block },
        Err(Fault::Rule(block)) if block < blocks => Finding::Misplaced { block },
        Err(Fault::Rule(_)) => Finding::Broken,
    };
    match inspect(image) {
        found if found == finding => Ok(()),
        found => Err(format!("inspect gives {found:?} in place of {finding:?}")),
    }
}
