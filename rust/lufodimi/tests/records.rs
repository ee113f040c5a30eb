//! Records as bytes.

use lufodimi::{Campaign, Plan, Record, RecordError, Table};
use std::error::Error;

/// Number 8 of 9 is taken in the second round of a campaign of two cells: one expected
/// twice, one never.
#[rustfmt::skip]
const STORED: &[u8] = &[
    b'L', b'U', b'F', b'R', 2, 0, 1, 0,
    1, 0, 0, 0, 2, 0, 0, 0, 2, 0, 0, 0,
    0, 1,
    20, 0, 0, 0, 0, 0, 0, 0, 0, 0, 0, 0, 0, 0, 0, 0,
];

/// The same in the first round, as it was stored before there were rounds.
#[rustfmt::skip]
const OLD: &[u8] = &[
    b'L', b'U', b'F', b'R', 1, 0, 0, 0,
    1, 0, 0, 0, 2, 0, 0, 0, 2, 0, 0, 0,
    0, 1,
    2, 0, 0, 0, 0, 0, 0, 0,
];

/// The plan of that campaign.
fn plan() -> Plan {
    Plan::of(&Table::new(1, 2, 9, [18, 0]).expect("accepted"))
}

/// The record after so many rounds and draw 8.
fn record(rounds: u16) -> Record {
    let plan = plan();
    let mut campaign = Campaign::start(&plan);
    for _ in 0..rounds {
        for number in 0..9 {
            campaign.draw(number).expect("free");
        }
    }
    campaign.draw(8).expect("free");
    campaign.into_record()
}

fn changed(stored: &[u8], place: usize, byte: u8) -> Vec<u8> {
    let mut bytes = stored.to_vec();
    bytes[place] = byte;
    bytes
}

#[test]
fn a_record_is_stored_byte_by_byte_and_read_again() {
    assert_eq!(record(1).to_bytes(), STORED);
    assert_eq!(Record::from_bytes(STORED), Ok(record(1)));
    assert_eq!((record(1).rounds(), record(1).taken()), (1, 1));
    assert_eq!(record(1).tally(), [20, 0]);
    for rounds in [0, 2, 300, 999] {
        let stored = record(rounds).to_bytes();
        assert_eq!(Record::from_bytes(&stored), Ok(record(rounds)));
    }
}

#[test]
fn each_number_has_its_width() {
    let mut wide = STORED.to_vec();
    wide[6..12].copy_from_slice(&[1, 2, 3, 4, 5, 6]);
    wide[30..38].copy_from_slice(&[1, 2, 3, 4, 5, 6, 7, 8]);
    let record = Record::from_bytes(&wide).expect("a stored record");
    assert_eq!((record.rounds(), record.taken()), (0x0201, 0x0605_0403));
    assert_eq!(record.tally(), [20, 0x0807_0605_0403_0201]);
    assert_eq!(record.to_bytes(), wide);
}

#[test]
fn an_old_record_is_read_and_stored_as_it_was() {
    let mut wide = OLD.to_vec();
    wide[26..30].copy_from_slice(&[1, 2, 3, 255]);
    for (stored, second) in [(OLD, 0), (&wide, 0xFF03_0201)] {
        let record = Record::from_bytes(stored).expect("a stored record");
        assert_eq!((record.rounds(), record.taken()), (0, 1));
        assert_eq!(record.tally(), [2, second]);
        assert_eq!(record.to_bytes(), stored);
        assert_eq!(Record::from_bytes(&record.to_bytes()), Ok(record));
    }
}

#[test]
fn an_old_record_that_a_campaign_goes_on_with_is_stored_in_the_present_form() {
    let old = Record::from_bytes(OLD).expect("a stored record");
    assert_ne!(old, record(0));
    let plan = plan();
    let campaign = Campaign::resume(&plan, old).expect("it fits");
    assert_eq!(campaign.record(), &record(0));
    let present = [&STORED[..4], &[2, 0, 0, 0], &OLD[8..26], &[0; 12]];
    assert_eq!(campaign.record().to_bytes(), present.concat());
}

#[test]
fn other_bytes_are_no_record() {
    assert_eq!(Record::from_bytes(&[]), Err(RecordError::Magic));
    for stored in [STORED, OLD] {
        assert_eq!(
            Record::from_bytes(&changed(stored, 0, b'l')),
            Err(RecordError::Magic)
        );
    }
    let plan = Plan::of(&Table::new(1, 1, 1, [0]).expect("accepted"));
    assert_eq!(Record::from_bytes(plan.as_bytes()), Err(RecordError::Magic));
}

#[test]
fn other_forms_are_named() {
    for stored in [STORED, OLD] {
        for form in [0, 3, 255] {
            let read = Record::from_bytes(&changed(stored, 4, form));
            assert_eq!(read, Err(RecordError::Form(form.into())));
        }
        let form = 256 + u16::from(stored[4]);
        let read = Record::from_bytes(&changed(stored, 5, 1));
        assert_eq!(read, Err(RecordError::Form(form)));
    }
}

#[test]
fn the_form_is_not_taken_for_the_other() {
    assert_eq!(
        Record::from_bytes(&changed(STORED, 4, 1)),
        Err(RecordError::Layout)
    );
    assert_eq!(
        Record::from_bytes(&changed(OLD, 4, 2)),
        Err(RecordError::Layout)
    );
}

#[test]
fn the_length_is_exact() {
    for stored in [STORED, OLD] {
        for length in 0..stored.len() {
            let cut = Record::from_bytes(&stored[..length]);
            let error = if length < 4 {
                RecordError::Magic
            } else {
                RecordError::Layout
            };
            assert_eq!(cut, Err(error), "{length} bytes");
        }
        let longer = [stored, &[0]].concat();
        assert_eq!(Record::from_bytes(&longer), Err(RecordError::Layout));
        // the length of the bits, the length of the tally
        for (place, byte) in [(12, 1), (12, 6), (15, 255), (16, 1), (16, 3), (19, 255)] {
            let read = Record::from_bytes(&changed(stored, place, byte));
            assert_eq!(read, Err(RecordError::Layout), "byte {place}");
        }
    }
}

#[test]
fn the_zero_field_of_form_1_is_zero() {
    for place in [6, 7] {
        let read = Record::from_bytes(&changed(OLD, place, 1));
        assert_eq!(read, Err(RecordError::Layout), "byte {place}");
    }
}

#[test]
fn errors_are_sentences() {
    for (error, sentence) in [
        (RecordError::Magic, "the bytes are no stored record"),
        (
            RecordError::Form(3),
            "the record is stored in form 3, and only forms 1 and 2 can be read",
        ),
        (
            RecordError::Layout,
            "the stored record's zero field or length is wrong",
        ),
    ] {
        assert_eq!(error.to_string(), sentence);
        let shown: Box<dyn Error> = error.into();
        assert_eq!(format!("{shown:?}"), sentence);
    }
}
