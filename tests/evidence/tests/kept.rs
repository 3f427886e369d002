//! Images that the program before T-06 saved: loaded, saved and made again.

#[path = "../../kept/list.rs"]
mod list;

use evidence::image::{load, to_vec, BLOCK};
use evidence::table::{Mark, Table};
use evidence::text::{Reader, Session};

#[test]
fn all_are_there() {
    assert_eq!(list::found(), list::names());
    assert_eq!(list::names().len(), 32);
}

#[test]
fn each_is_loaded_and_saved_byte_for_byte() {
    for name in list::names() {
        let image = list::image(&name);
        let table = load(&image).unwrap_or_else(|fault| panic!("{name}: {fault}"));
        assert!(to_vec(&table).unwrap() == image, "{name}");
        assert!(image.chunks(BLOCK).all(|block| block[1] == 1), "{name}");
    }
}

#[test]
fn its_schedule_gives_each() {
    for name in list::names() {
        let mut session = Session::new();
        let mut answers = Vec::new();
        for line in Reader::new(list::schedule(&name).as_bytes()) {
            session.answer(line, &mut answers);
        }
        assert!(!answers.contains(&b'E'), "{name}");
        let image = to_vec(session.table().unwrap()).unwrap();
        assert!(image == list::image(&name), "{name}");
    }
}

/// They are what their names say.
#[test]
fn what_they_are() {
    for name in list::names() {
        let table = load(&list::image(&name)).unwrap();
        let (n, kind) = name.split_once('-').unwrap();
        assert_eq!(format!("n{}", table.desks()), n);
        let most = desks(&table).flat_map(|i| table.applied(i).unwrap()).max();
        let holding = desks(&table).filter(|&i| held(&table, i) > 0).count();
        match kind {
            "fresh" => assert_eq!(Ok(table), Table::new(n[1..].parse().unwrap(), 1), "{name}"),
            "full" => {
                let set = |i| (1..=64).all(|x| table.peek(i, x).unwrap().is_some());
                assert!(desks(&table).all(set), "{name}");
                let open = if table.desks() == 1 { 0 } else { 64 };
                assert_eq!(table.open_count(), open, "{name}");
            }
            "held" => assert_eq!((holding, held(&table, table.desks().into())), (1, 2)),
            "held-several" => assert!(holding > 1, "{name}"),
            _ => {
                // And perhaps one more.
                let (count, _) = kind.split_once('-').unwrap();
                let count: u16 = count.parse().unwrap();
                assert!(
                    most == Some(count) || most == count.checked_add(1),
                    "{name}"
                );
            }
        }
    }
}

fn desks(table: &Table) -> impl Iterator<Item = u16> {
    1..=table.desks().into()
}

/// How many writes a desk holds.
fn held(table: &Table, desk: u16) -> usize {
    let marks = table.open_writes().map(|w| w.marks[usize::from(desk) - 1]);
    marks.filter(|&mark| mark == Mark::Held).count()
}
