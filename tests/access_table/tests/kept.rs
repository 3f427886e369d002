//! Images that the library before T-06 saved: loaded, saved and made again.

#[path = "../../kept/list.rs"]
mod list;

use access_table::{inspect, run, Finding, Table, MAX_SCHEDULE};

#[test]
fn all_are_there() {
    assert_eq!(list::found(), list::names());
    assert_eq!(list::names().len(), 32);
}

#[test]
fn each_is_loaded_and_saved_byte_for_byte() {
    for name in list::names() {
        let image = list::image(&name);
        let found = run(Some(&image), b"").unwrap_or_else(|refusal| panic!("{name}: {refusal}"));
        assert!(found.answers.is_empty(), "{name}");
        let size = Finding::Table {
            desks: image[4].into(),
            cells: image[5].into(),
            open: image[6].into(),
        };
        assert_eq!(inspect(&image), size, "{name}");
        assert!(found.image == Some(image), "{name}");
    }
}

/// From no table, in calls as long as they may be.
#[test]
fn its_schedule_gives_each() {
    for name in list::names() {
        let mut table = Table::new();
        let mut call = String::new();
        for line in list::schedule(&name).split_inclusive('\n') {
            if call.len() + line.len() > MAX_SCHEDULE {
                table.run(call.as_bytes()).unwrap();
                call.clear();
            }
            call += line;
        }
        let answers = table.run(call.as_bytes()).unwrap();
        assert!(!answers.contains(&b'E'), "{name}");
        assert!(table.into_image() == Some(list::image(&name)), "{name}");
    }
}
