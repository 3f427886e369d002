//! Document 01's whole session, and what it says about it.

mod common;

use common::{session, SESSION};
use evidence::causal::{self, Holds};
use evidence::table::{Delivery, Mark, Name, Table, Verdict};
use evidence::text::replay;
use std::fs;
use std::path::Path;

#[test]
fn whole_session_byte_for_byte() {
    let (input, output) = session();
    assert_eq!(replay(&input), output);
    assert_eq!(common::slow::replay(&input).0, output);
}

#[test]
fn every_prefix_of_the_session() {
    for count in 0..=SESSION.len() {
        let input: String = SESSION[..count]
            .iter()
            .map(|s| format!("{}\n", s.0))
            .collect();
        let output: String = SESSION[..count]
            .iter()
            .map(|s| format!("{}\n", s.1))
            .collect();
        assert_eq!(replay(input.as_bytes()), output.as_bytes());
    }
}

#[test]
fn the_session_is_causal() {
    let (input, output) = session();
    let report = causal::check(&input, &output).unwrap();
    assert_eq!((report.lines, report.refused), (18, 3));
    assert_eq!((report.writes, report.reads, report.trips), (3, 3, 3));
    assert_eq!((report.applied, report.held, report.released), (4, 1, 1));
    assert_eq!((report.longest, report.left_held), (2, 0));
    let holds = Holds {
        other: 1,
        ..Holds::default()
    };
    assert_eq!(report.holds, holds);
}

/// The examples that `replay` is held against are this package's answers.
#[test]
fn the_examples() {
    let folder = Path::new(env!("CARGO_MANIFEST_DIR")).join("../../examples");
    let mut seen = 0;
    for entry in fs::read_dir(folder).expect("the examples") {
        let input = entry.expect("an entry").path();
        if input.extension().is_some_and(|kind| kind == "txt") {
            let text = fs::read(&input).expect("an example");
            let output = fs::read(input.with_extension("out")).expect("its answers");
            assert!(replay(&text) == output, "{}", input.display());
            seen += 1;
        }
    }
    assert!(seen >= 4, "{seen}");
}

/// "The vector of 2.1 is (1,1,0): desk 2 had applied 1.2 but not read it."
#[test]
fn the_session_through_the_library() {
    let mut t = Table::new(3, 2).unwrap();
    let name = |desk, number| Name { desk, number };
    assert_eq!(t.write(1, 1, 2), Ok(name(1, 1)));
    assert_eq!(t.deliver(2, 1, 1), Ok(Delivery::Applied(&[name(1, 1)])));
    assert_eq!(t.read(2, 1).unwrap().unwrap().write, name(1, 1));
    assert_eq!(t.write(1, 1, 1), Ok(name(1, 2)));
    assert_eq!(t.deliver(2, 1, 2), Ok(Delivery::Applied(&[name(1, 2)])));
    assert_eq!(t.write(2, 2, 1), Ok(name(2, 1)));
    assert_eq!(t.applied(2).unwrap()[..3], [2, 1, 0]);
    assert_eq!(t.clock(2).unwrap()[..3], [1, 1, 0]);
    let (reading, vector) = t.peek(2, 2).unwrap().unwrap();
    assert_eq!((reading.status, reading.write), (1, name(2, 1)));
    assert_eq!(vector[..2], [1, 1]);
    assert_eq!(vector[2..], [0; 14]);
    assert_eq!(t.deliver(3, 2, 1), Ok(Delivery::Held(name(1, 1))));
    let open: Vec<_> = t.open_writes().collect();
    assert_eq!(open.len(), 3);
    assert_eq!(open[2].name, name(2, 1));
    assert_eq!(
        open[2].marks[..4],
        [Mark::Missing, Mark::Applied, Mark::Held, Mark::Missing]
    );
    assert_eq!(t.trip(3, &[1, 2]), Ok(Verdict::Unknown));
    let both = [name(1, 1), name(2, 1)];
    assert_eq!(t.deliver(3, 1, 1), Ok(Delivery::Applied(&both)));
    // 1.1 is applied everywhere and open no more.
    assert_eq!(t.open_count(), 2);
    assert_eq!(t.trip(3, &[1, 2]), Ok(Verdict::No));
    assert_eq!(t.clock(3).unwrap()[..3], [1, 1, 0]);
}
