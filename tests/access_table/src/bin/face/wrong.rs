//! Deliberately wrong libraries. The program has to see each of them, and to
//! show it in few lines or bytes; and to find nothing wrong with the right one.

use crate::calls::Expect;
use crate::counts::Counts;
use crate::findings;
use crate::images::put_checks_right;
use crate::pieces::expected;
use crate::{all, Library};
use evidence::gen::in_edition;
use evidence::image::{self, block_count, check_of, Edition, Fault, BLOCK, CHECK, PAYLOAD};
use evidence::table::Table;
use evidence::text::{Session, MAX_INPUT};

#[derive(Clone, Copy, Debug, PartialEq, Eq)]
enum Wrong {
    Nothing,
    // Refusals that leave something.
    AnswersBefore14,
    ImageBefore14,
    LengthsBefore14,
    AnswersBefore13,
    // Lengths.
    ImageLength,
    AnswersLength,
    LengthsInOne,
    AnswersTail,
    ImageTail,
    LengthsTail,
    RoomToSpare,
    // The schedule's length, and the order of refusals.
    OneByteLess,
    OneByteMore,
    LongBeforeImage,
    ShortBeforeImage,
    // Answers.
    UnsetIsYes,
    LastNameMissing,
    HoldWithoutNumber,
    HoldNextButOne,
    NoLfIsRun,
    // What goes with the image.
    HeldLost,
    ClockLost,
    NoTableKept,
    // The image's verdict.
    Always13,
    OpenOrder,
    HeadByte,
    HeldReady,
    OneBlockMore,
    Refuses65535,
    // Sixteen desks.
    EightDesks,
    SeventeenDesks,
    DeskOneByte,
    NumberOneAlways,
    EditionOneAlways,
    EditionTwoAlways,
    EditionInHead,
    PlacesLost,
    ClocksPlacesLost,
    MarksLost,
    LastCellLost,
    LastOpenLost,
    ThirtySevenBlocks,
    AnyEdition,
    HeadEdition,
    OtherEdition,
    PlacesPastN,
    // The image's number.
    LengthIs12,
    StrayBeforeCheck,
    EmptyIs15,
    // What is found: which block is named.
    LastCheckNamed,
    LastStrayNamed,
    StrayFoundFirst,
    CheckPlusOne,
    StrayPlusOne,
    CountLessOne,
    CountAlways,
    CountNever,
    CountOfHead,
    HeadBeforePlaces,
    // What can stand there.
    EqualEditions,
    EditionOfN,
    EditionOneStands,
    EditionNotTested,
    KindsInOrder,
    SecondHeadStands,
    KindNotTested,
    PlaceLowByte,
    PlaceNotTested,
    // The numbers, and where they go.
    NumbersSwapped,
    CutFoundAs12,
    CutHasPlace,
    EmptyIsNoFault,
    SizeOfRefused,
    NoSize,
    SizesSwapped,
    FifthMissing,
    ShortWritten,
    FourAreEnough,
    FindingTail,
    ReturnsNumber,
}

/// `access_run` over the independent implementation, wrong in one way.
fn run(
    wrong: Wrong,
    image: &[u8],
    schedule: &[u8],
    answers: &mut [u8],
    image_out: &mut [u8],
    lengths: &mut [u64],
) -> u64 {
    if wrong == Wrong::LongBeforeImage && schedule.len() > MAX_INPUT {
        return 14;
    }
    if wrong == Wrong::ShortBeforeImage && lengths.len() < 2 {
        return 14;
    }
    let mut session = match start(wrong, image) {
        Ok(session) => session,
        Err(number) => {
            if wrong == Wrong::AnswersBefore13 && number == 13 && !answers.is_empty() {
                answers[0] = 0;
            }
            return number;
        }
    };
    let text = match (wrong, schedule.len()) {
        (Wrong::OneByteLess, MAX_INPUT) => return 14,
        (Wrong::OneByteMore, over) if over == MAX_INPUT + 1 => &schedule[..MAX_INPUT],
        _ => schedule,
    };
    let text = match (wrong, text.last()) {
        (Wrong::NoLfIsRun, Some(last)) if *last != b'\n' => [text, b"\n"].concat(),
        _ => text.to_vec(),
    };
    let text = match wrong {
        Wrong::EightDesks => eight(&text),
        _ => text,
    };
    let (mut found, mut after) = match expected(&mut session, &text) {
        Expect::Refused(number) => return number,
        Expect::Done { answers, image } => (answers, image),
    };
    if wrong == Wrong::SeventeenDesks {
        found = seventeen(&text, &found);
    }
    spoil(wrong, &mut found, &mut after);
    write(wrong, &found, &after, [answers, image_out], lengths)
}

/// A schedule where a table of more than 8 desks is one of 17.
fn eight(text: &[u8]) -> Vec<u8> {
    let lines = text.split_inclusive(|&b| b == b'\n').map(|line| {
        let line = String::from_utf8_lossy(line);
        let n = line
            .strip_prefix("N ")
            .and_then(|rest| rest.split_once(' '));
        match n {
            Some((n, rest)) if (9..=16).any(|many| n == many.to_string()) => {
                format!("N 17 {rest}").into_bytes()
            }
            _ => line.into_owned().into_bytes(),
        }
    });
    lines.collect::<Vec<_>>().concat()
}

/// The answers to a schedule where 17 desks are taken too.
fn seventeen(text: &[u8], answers: &[u8]) -> Vec<u8> {
    let lines = |text: &[u8]| -> Vec<Vec<u8>> {
        let lines = text.split_inclusive(|&b| b == b'\n');
        lines.map(<[u8]>::to_vec).collect()
    };
    let pairs = lines(text).into_iter().zip(lines(answers));
    let answers = pairs.map(|(line, answer)| match line.starts_with(b"N 17 ") {
        true if answer == b"E 11\n" => b"N\n".to_vec(),
        _ => answer,
    });
    answers.collect::<Vec<_>>().concat()
}

/// The session that an image gives.
fn start(wrong: Wrong, image: &[u8]) -> Result<Session, u64> {
    if image.is_empty() {
        return match wrong {
            Wrong::EmptyIs15 => Err(15),
            _ => Ok(Session::new()),
        };
    }
    if wrong == Wrong::ThirtySevenBlocks && image.len() > 37 * BLOCK {
        return Err(13);
    }
    let table = match (image::load(image), wrong) {
        (Ok(table), Wrong::EightDesks) if table.desks() > 8 => return Err(13),
        (Ok(table), Wrong::Refuses65535) if spent(&table) => return Err(13),
        (Ok(table), _) => table,
        (Err(Fault::Check(_)), Wrong::Always13) => return Err(13),
        (Err(Fault::WrongLength), Wrong::LengthIs12) => return Err(12),
        (Err(Fault::Check(place)), Wrong::StrayBeforeCheck)
            if strays(wrong, image).iter().any(|&stray| stray < place) =>
        {
            return Err(13)
        }
        (Err(fault), _) => {
            let mended = mend(wrong, image).and_then(|image| image::load(&image).ok());
            mended.ok_or(u64::from(fault.refusal().number()))?
        }
    };
    Ok(Session::with_table(table))
}

fn spent(table: &Table) -> bool {
    let desks = 1..=u16::from(table.desks());
    desks
        .filter_map(|desk| table.applied(desk).ok())
        .any(|counts| counts.contains(&u16::MAX))
}

/// Wrong answers, and wrong images behind them.
fn spoil(wrong: Wrong, answers: &mut Vec<u8>, image: &mut Vec<u8>) {
    let mut lines: Vec<Vec<u8>> = answers
        .split_inclusive(|&b| b == b'\n')
        .map(<[u8]>::to_vec)
        .collect();
    for line in &mut lines {
        let names = line.iter().filter(|&&b| b == b' ').count();
        if wrong == Wrong::UnsetIsYes && line == b"T unknown\n" {
            *line = b"T yes\n".to_vec();
        }
        if wrong == Wrong::LastNameMissing && line[0] == b'A' && names > 2 {
            let last = line.iter().rposition(|&b| b == b' ').unwrap_or_default();
            line.truncate(last);
            line.push(b'\n');
        }
        if line[0] == b'H' {
            misname(wrong, line);
        }
        if wrong == Wrong::DeskOneByte && b"RWHA".contains(&line[0]) {
            *line = one_byte(line);
        }
    }
    *answers = lines.concat();
    if image.is_empty() {
        if wrong == Wrong::NoTableKept {
            *image = image::to_vec(&Table::new(1, 1).unwrap()).unwrap();
        }
        return;
    }
    let n = usize::from(image[PAYLOAD]);
    let edition = Edition::of(n);
    match wrong {
        Wrong::HeldLost => {
            for at in open_writes(image) {
                for mark in &mut image[at + edition.marks()..at + edition.open_bytes] {
                    *mark &= 2;
                }
            }
        }
        Wrong::ClockLost => {
            for desk in 0..n {
                let at = (1 + desk) * BLOCK + PAYLOAD + edition.clock();
                let own = [image[at + 2 * desk], image[at + 2 * desk + 1]];
                image[at..at + 2 * edition.places].fill(0);
                image[at + 2 * desk..][..2].copy_from_slice(&own);
            }
        }
        _ if n > 8 => spoil_many(wrong, image),
        Wrong::EditionTwoAlways => {
            *image = in_edition(image, Edition::ONE, Edition::TWO).unwrap();
        }
        _ => return,
    }
    put_checks_right(image);
}

/// Wrong images of 9 to 16 desks.
fn spoil_many(wrong: Wrong, image: &mut Vec<u8>) {
    let Edition {
        cell_bytes,
        cells_per_block,
        open_bytes,
        open_per_block,
        ..
    } = Edition::TWO;
    let opens = open_writes(image);
    let blocks = || (0..image.len()).step_by(BLOCK);
    let cells: Vec<usize> = blocks()
        .filter(|&at| image[at] == 3)
        .flat_map(|at| (0..cells_per_block).map(move |x| at + PAYLOAD + x * cell_bytes))
        .collect();
    match wrong {
        Wrong::NumberOneAlways => image.chunks_mut(BLOCK).for_each(|block| block[1] = 1),
        Wrong::EditionOneAlways => {
            *image = in_edition(image, Edition::TWO, Edition::ONE).unwrap();
        }
        Wrong::EditionInHead => image
            .chunks_mut(BLOCK)
            .skip(1)
            .for_each(|block| block[1] = 1),
        Wrong::PlacesLost => {
            for at in cells.into_iter().chain(opens) {
                image[at + 4 + 16..at + 4 + 32].fill(0);
            }
        }
        Wrong::ClocksPlacesLost => {
            let clocks: Vec<usize> = blocks().filter(|&at| image[at] == 2).collect();
            for at in clocks {
                image[at + PAYLOAD + 36 + 16..at + PAYLOAD + 36 + 32].fill(0);
            }
        }
        Wrong::MarksLost => {
            for at in opens {
                image[at + 36 + 8..at + 36 + 16].fill(0);
            }
        }
        Wrong::LastCellLost => {
            for at in cells
                .into_iter()
                .skip(cells_per_block - 1)
                .step_by(cells_per_block)
            {
                image[at..at + cell_bytes].fill(0);
            }
        }
        Wrong::LastOpenLost => {
            for at in opens
                .into_iter()
                .skip(open_per_block - 1)
                .step_by(open_per_block)
            {
                image[at..at + open_bytes].fill(0);
            }
        }
        _ => return,
    }
    put_checks_right(image);
}

/// A line with each desk of two digits as one byte behind `9`.
fn one_byte(line: &[u8]) -> Vec<u8> {
    let text = String::from_utf8_lossy(line).into_owned();
    let text = (10..=16u8).fold(text, |text, desk| {
        text.replace(
            &format!(" {desk}."),
            &format!(" {}.", char::from(b'0' + desk)),
        )
    });
    text.into_bytes()
}

/// A held answer that names another write, or none.
fn misname(wrong: Wrong, line: &mut Vec<u8>) {
    let text = String::from_utf8_lossy(line);
    let (desk, number) = text.trim_end().split_once('.').unwrap_or_default();
    let number: u32 = number.parse().unwrap_or_default();
    match wrong {
        Wrong::HoldWithoutNumber => *line = format!("{desk}\n").into_bytes(),
        Wrong::HoldNextButOne => *line = format!("{desk}.{}\n", number + 1).into_bytes(),
        _ => {}
    }
}

/// Puts what a call gives into its buffers.
fn write(
    wrong: Wrong,
    found: &[u8],
    after: &[u8],
    [answers, image_out]: [&mut [u8]; 2],
    lengths: &mut [u64],
) -> u64 {
    let spare = usize::from(wrong == Wrong::RoomToSpare);
    if wrong == Wrong::ImageBefore14 && image_out.len() >= after.len() {
        image_out[..after.len()].copy_from_slice(after);
    }
    if wrong == Wrong::LengthsBefore14 && lengths.len() >= 2 {
        lengths[1] = after.len() as u64;
    }
    if wrong == Wrong::LengthsInOne && lengths.len() == 1 {
        lengths[0] = found.len() as u64;
    }
    if answers.len() < found.len() {
        if wrong == Wrong::AnswersBefore14 && !answers.is_empty() {
            answers[0] = found[0];
        }
        return 14;
    }
    if image_out.len() < after.len() + spare || lengths.len() < 2 {
        return 14;
    }
    answers[..found.len()].copy_from_slice(found);
    image_out[..after.len()].copy_from_slice(after);
    lengths[0] = (found.len() + usize::from(wrong == Wrong::AnswersLength)) as u64;
    lengths[1] = (after.len() + usize::from(wrong == Wrong::ImageLength)) as u64;
    match wrong {
        Wrong::AnswersTail => answers[found.len()..].fill(0),
        Wrong::ImageTail => image_out[after.len()..].fill(0),
        Wrong::LengthsTail => lengths[2..].fill(0),
        _ => {}
    }
    0
}

/// The places of the open writes of an image, if it has room for as many as it
/// says.
fn open_writes(image: &[u8]) -> Vec<usize> {
    let [n, m, open] = [4, 5, 6].map(|at| usize::from(image[at]));
    let first = block_count(n, m, 0);
    if image.len() != block_count(n, m, open) * BLOCK {
        return Vec::new();
    }
    let edition = Edition::of(n);
    let place = |j: usize| {
        let block = first + j / edition.open_per_block;
        block * BLOCK + PAYLOAD + j % edition.open_per_block * edition.open_bytes
    };
    (0..open).map(place).collect()
}

/// The image that a wrong library takes a broken one for.
fn mend(wrong: Wrong, image: &[u8]) -> Option<Vec<u8>> {
    if image.is_empty()
        || !image.len().is_multiple_of(BLOCK)
        || !matches!(image::load(image), Err(Fault::Rule(_)))
    {
        return None;
    }
    let mut image = image.to_vec();
    let opens = open_writes(&image);
    let n = usize::from(image[PAYLOAD]);
    let edition = Edition::of(n);
    let open_bytes = edition.open_bytes;
    match wrong {
        Wrong::OpenOrder => {
            let write = |&at: &usize| image[at..at + open_bytes].to_vec();
            let mut list: Vec<Vec<u8>> = opens.iter().map(write).collect();
            list.sort_by_key(|write| {
                let own = 4 + 2 * usize::from(write[0].clamp(1, edition.places as u8) - 1);
                (write[0], u16::from_le_bytes([write[own], write[own + 1]]))
            });
            for (at, write) in opens.into_iter().zip(list) {
                image[at..at + open_bytes].copy_from_slice(&write);
            }
        }
        Wrong::HeadByte => image[PAYLOAD + 3..508].fill(0),
        Wrong::HeldReady => {
            for at in opens {
                for mark in edition.marks()..open_bytes {
                    let mut without = image.clone();
                    without[at + mark] &= 2;
                    put_checks_right(&mut without);
                    if image::load(&without).is_ok() {
                        return Some(without);
                    }
                }
            }
        }
        Wrong::OneBlockMore => {
            let [n, m, open] = [4, 5, 6].map(|at| usize::from(image[at]));
            image.truncate(block_count(n, m, open) * BLOCK);
        }
        Wrong::AnyEdition => {
            let blocks = image.chunks_mut(BLOCK);
            blocks.for_each(|block| block[1] = edition.number);
        }
        Wrong::HeadEdition if image[1] == edition.number => {
            let blocks = image.chunks_mut(BLOCK);
            blocks.for_each(|block| block[1] = edition.number);
        }
        Wrong::OtherEdition if n <= 8 && image.chunks(BLOCK).all(|block| block[1] == 2) => {
            image = in_edition(&image, Edition::TWO, Edition::ONE)?;
        }
        Wrong::PlacesPastN if n > 8 => {
            for at in opens {
                image[at + 4 + 2 * n..at + edition.marks()].fill(0);
                image[at + edition.marks() + n..at + open_bytes].fill(0);
            }
        }
        _ => return None,
    }
    put_checks_right(&mut image);
    Some(image)
}

/// `access_inspect` over the independent implementation, wrong in one way.
fn inspect(wrong: Wrong, image: &[u8], finding: &mut [u64]) -> u64 {
    let five = found(wrong, image);
    match finding {
        [front @ .., _] if wrong == Wrong::ShortWritten && front.len() == 3 => {
            front.copy_from_slice(&five[..3]);
            14
        }
        [_, _, _, _] if wrong == Wrong::FourAreEnough => {
            finding.copy_from_slice(&five[..4]);
            0
        }
        [front @ .., _] if front.len() < 4 => 14,
        [] => 14,
        _ => {
            let written = if wrong == Wrong::FifthMissing { 4 } else { 5 };
            finding[..written].copy_from_slice(&five[..written]);
            if wrong == Wrong::FindingTail {
                finding[5..].fill(0);
            }
            match wrong {
                Wrong::ReturnsNumber => five[0],
                _ => 0,
            }
        }
    }
}

/// The five numbers of a wrong library.
fn found(wrong: Wrong, image: &[u8]) -> [u64; 5] {
    let right = findings::expected(image);
    let refused = |number: u64, place: usize| [number, place as u64, 0, 0, 0];
    let blocks = image.len() / BLOCK;
    let Err(fault) = image::load(image) else {
        let [number, place, n, m, open] = right;
        return match wrong {
            Wrong::NoSize => refused(0, 0),
            Wrong::SizesSwapped => [number, place, m, n, open],
            _ => right,
        };
    };
    let strays = strays(wrong, image);
    match (fault, wrong) {
        (_, Wrong::EmptyIsNoFault) if image.is_empty() => refused(0, 0),
        (_, Wrong::SizeOfRefused) if blocks > 0 => {
            let [n, m, open] = [4, 5, 6].map(|at| u64::from(image[at]));
            [right[0], right[1], n, m, open]
        }
        (Fault::WrongLength, Wrong::NumbersSwapped | Wrong::CutFoundAs12) => refused(12, 0),
        (Fault::WrongLength, Wrong::CutHasPlace) => refused(15, blocks),
        (Fault::WrongLength, _) => right,
        (Fault::Check(place), Wrong::NumbersSwapped) => refused(15, place),
        (Fault::Check(_), Wrong::LastCheckNamed) => {
            let wrong_check = |at: &usize| {
                let block = &image[at * BLOCK..][..BLOCK];
                block[CHECK..] != check_of(block).to_le_bytes()
            };
            let last = (0..blocks).rev().find(wrong_check);
            refused(12, last.unwrap_or_default())
        }
        (Fault::Check(place), Wrong::StrayFoundFirst) => match strays.first() {
            Some(&stray) if stray < place => refused(13, stray),
            _ => right,
        },
        (Fault::Check(place), Wrong::CheckPlusOne) => refused(12, place + 1),
        (Fault::Check(_), _) => right,
        (Fault::Rule(_), Wrong::LastStrayNamed) => refused(13, *strays.last().unwrap_or(&blocks)),
        (Fault::Rule(place), Wrong::StrayPlusOne) => refused(13, (place + 1).min(blocks)),
        (Fault::Rule(place), Wrong::CountLessOne) => refused(13, place.min(blocks - 1)),
        (Fault::Rule(_), Wrong::CountAlways) => refused(13, blocks),
        (Fault::Rule(_), Wrong::CountNever) => refused(13, *strays.first().unwrap_or(&0)),
        (Fault::Rule(place), Wrong::CountOfHead) if place == blocks => {
            let [n, m, open] = [4, 5, 6].map(|at| usize::from(image[at]));
            refused(13, block_count(n, m, open))
        }
        (Fault::Rule(_), Wrong::HeadBeforePlaces)
            if !(1..=16).contains(&image[4]) || image[7..CHECK].iter().any(|&byte| byte != 0) =>
        {
            refused(13, blocks)
        }
        (Fault::Rule(_), _) => refused(13, *strays.first().unwrap_or(&blocks)),
    }
}

/// The blocks that cannot stand where they are, by a wrong library.
fn strays(wrong: Wrong, image: &[u8]) -> Vec<usize> {
    let n_fits = |edition| edition == Edition::of(image[PAYLOAD].into()).number;
    let stands = |&at: &usize| {
        let block = &image[at * BLOCK..][..BLOCK];
        let kind = match (wrong, block[0]) {
            (Wrong::KindNotTested, _) => true,
            (Wrong::SecondHeadStands, 1) => true,
            (_, 1) => at == 0,
            (Wrong::KindsInOrder, kind @ 2..=4) => at > 0 && kind >= image[(at - 1) * BLOCK],
            (_, 2..=4) => at > 0,
            _ => false,
        };
        let edition = match (wrong, block[1]) {
            (Wrong::EditionNotTested, _) => true,
            (Wrong::EqualEditions, edition @ 1..=2) => edition == image[1],
            (Wrong::EditionOfN, edition @ 1..=2) => n_fits(edition),
            (Wrong::EditionOneStands, edition) => edition == 1,
            (_, edition) => (1..=2).contains(&edition),
        };
        let place = match wrong {
            Wrong::PlaceNotTested => true,
            Wrong::PlaceLowByte => usize::from(block[2]) == at,
            _ => usize::from(u16::from_le_bytes([block[2], block[3]])) == at,
        };
        kind && edition && place
    };
    (0..image.len() / BLOCK).filter(|at| !stands(at)).collect()
}

/// A library without the wrapper, which has the linked one under it.
macro_rules! library {
    ($wrong:expr) => {
        Library {
            call: |i, s, a, o, l| run($wrong, i, s, a, o, l),
            inspect: |i, f| inspect($wrong, i, f),
            wrapped: false,
        }
    };
}

/// Each wrong library, with how many schedules and images it is tried on.
macro_rules! libraries {
    ($($wrong:ident $sizes:expr;)*) => {
        [$((Wrong::$wrong, library!(Wrong::$wrong), $sizes)),*]
    };
}

#[test]
fn the_right_library_passes() {
    let right = library!(Wrong::Nothing);
    let mut counts = Counts::default();
    all(right, [140, 240], 5, &mut counts).unwrap();
    assert_eq!((counts.schedules(), counts.images()), (140, 240));
    assert_eq!(counts.missing_of_images(), [""; 0]);
    assert!(!Counts::default().missing_of_schedules().is_empty());
    assert!(!Counts::default().missing_of_images().is_empty());
}

#[test]
fn every_wrong_library_is_caught_and_shown_in_short() {
    let (texts, images) = ([140, 0], [0, 600]);
    let libraries = libraries![
        AnswersBefore14 texts; ImageBefore14 texts; LengthsBefore14 texts; AnswersBefore13 images;
        ImageLength texts; AnswersLength texts; LengthsInOne texts; AnswersTail texts;
        ImageTail texts; LengthsTail texts; RoomToSpare texts; OneByteLess texts;
        OneByteMore texts; LongBeforeImage images; ShortBeforeImage images; UnsetIsYes texts;
        LastNameMissing texts; HoldWithoutNumber texts; HoldNextButOne texts; NoLfIsRun texts;
        HeldLost texts; ClockLost texts; NoTableKept texts; Always13 images; OpenOrder images;
        HeadByte images; HeldReady images; OneBlockMore images; Refuses65535 images;
        EightDesks texts; SeventeenDesks texts; DeskOneByte texts; NumberOneAlways texts;
        EditionOneAlways texts; EditionTwoAlways texts; EditionInHead texts; PlacesLost texts;
        ClocksPlacesLost texts; MarksLost texts; LastCellLost texts; LastOpenLost texts;
        ThirtySevenBlocks texts; AnyEdition images; HeadEdition images; OtherEdition images;
        PlacesPastN images;
        LengthIs12 images; StrayBeforeCheck images; EmptyIs15 images;
        LastCheckNamed images; LastStrayNamed images; StrayFoundFirst images; CheckPlusOne images;
        StrayPlusOne images; CountLessOne images; CountAlways images; CountNever images;
        CountOfHead images; HeadBeforePlaces images; EqualEditions images; EditionOfN images;
        EditionOneStands images; EditionNotTested images; KindsInOrder images;
        SecondHeadStands images; KindNotTested images; PlaceLowByte images; PlaceNotTested images;
        NumbersSwapped images; CutFoundAs12 images; CutHasPlace images; EmptyIsNoFault images;
        SizeOfRefused images; NoSize texts; SizesSwapped texts; FifthMissing images;
        ShortWritten images; FourAreEnough images; FindingTail images; ReturnsNumber images;
    ];
    for (wrong, library, sizes) in libraries {
        let Err(report) = all(library, sizes, 1, &mut Counts::default()) else {
            panic!("{wrong:?} was not caught");
        };
        println!("{wrong:?}: {report}");
        let lines = report.lines().filter(|l| l.starts_with("    ")).count();
        let most = match wrong {
            // Nothing shorter than the limit shows these.
            Wrong::OneByteLess | Wrong::OneByteMore => usize::MAX,
            // Every block is another.
            Wrong::OtherEdition => usize::MAX,
            _ => 12,
        };
        assert!(lines <= most, "{wrong:?} takes {lines} lines:\n{report}");
    }
}
