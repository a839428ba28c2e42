//! Document 02, request 3: its sentences by hand, every length, place and pair of alignments, what
//! holds of any two parts on a subject alone, and the mending that compares by it.

use hsc_tests::generate::event::event;
use hsc_tests::generate::image::{self, Parts};
use hsc_tests::generate::{parts, patch, Rng};
use hsc_tests::harness::alone::{answer, generated};
use hsc_tests::harness::case::{Case, PAINT};
use hsc_tests::model::snapshot;
use hsc_tests::subject::{on_each, Model, Subject};

#[test]
fn places_by_hand() {
    let night = [0xa5; 1000];
    let mut edited = night;
    edited[700] = 0xa4;
    edited[999] = 0;
    let rows: [(&[u8], &[u8], usize); 19] = [
        // The first place where they differ.
        (b"a", b"b", 0),
        (b"snapshot", b"Snapshot", 0),
        (b"snapshot", b"snipshot", 2),
        (b"snapshot", b"snapshop", 7),
        (b"snapshot", b"snapchat", 4),
        (b"snapshot", b"snow", 2),
        (&[0, 0], &[0, 1], 1),
        (&[0, 0x80], &[0, 0], 1),
        (&night, &edited, 700),
        (&night[..701], &edited, 700),
        (&night[701..], &edited[701..], 298),
        // The shorter's length if there is none within it.
        (b"", b"", 0),
        (b"", b"a", 0),
        (b"a", b"a", 1),
        (b"snap", b"snapshot", 4),
        (b"snapshot", b"snapshot", 8),
        (&[0], &[0, 0], 1),
        (&night, &night, 1000),
        (&night, &edited[..700], 700),
    ];
    on_each(|subject| {
        for (first, second, place) in rows {
            for (first, second) in [(first, second), (second, first)] {
                let case = Case::first_difference(first, second);
                case.expect(subject, &case.differs_at(place)).unwrap();
            }
        }
    });
}

/// Reading on to the end of a gibibyte takes some hundredths of a second, and a million times that
/// some hours.
#[test]
fn it_leaves_off_at_the_first_difference() {
    let mut memory = vec![0; 1 << 30];
    memory[0] = 1;
    let (first, second) = (&memory[..memory.len() - 1], &memory[1..]);
    on_each(|subject| {
        for _ in 0..1_000_000 {
            assert_eq!(subject.first_difference(first, second), 0);
        }
    });
}

const LONGEST: usize = 200;
/// Bytes on each side of the parts.
const AROUND: usize = 64;
const ALIGNMENTS: usize = 64;
/// By how many bytes each part is longer than the bytes that are told from each other.
const LONGER: [[usize; 2]; 5] = [[0, 0], [1, 0], [0, 1], [33, 0], [0, 33]];
/// How many bytes past these still agree.
const AGREE_PAST: [usize; 4] = [0, 1, 9, AROUND];

#[repr(align(64))]
struct Memory([u8; AROUND + ALIGNMENTS + LONGEST + AROUND]);

impl Memory {
    fn of(byte: u8) -> Memory {
        Memory([byte; AROUND + ALIGNMENTS + LONGEST + AROUND])
    }

    /// The longest part that begins so many bytes past a multiple of 64, and the bytes past it.
    fn part(&mut self, alignment: usize) -> &mut [u8] {
        let part = &mut self.0[AROUND + alignment..][..LONGEST + AROUND];
        assert_eq!(part.as_ptr() as usize % 64, alignment);
        part
    }
}

/// Compares at every length, place and pair of alignments, and says how often. By turns the one
/// part or the other is longer, the bytes past the shorter differ or agree for a while, behind
/// the place all bytes differ, some or none, and they differ by each bit; for every length and
/// place, each of these comes with each of the others.
fn compare_at_every_place(subject: &dyn Subject) -> usize {
    let mut rng = Rng::new(3);
    let bytes = [(); LONGEST + AROUND].map(|()| rng.bits() as u8);
    let mut count = 0;
    for pair in 0..ALIGNMENTS * ALIGNMENTS {
        let (mut one, mut other) = (Memory::of(0), Memory::of(1));
        let first = one.part(pair / ALIGNMENTS);
        let second = other.part(pair % ALIGNMENTS);
        first.copy_from_slice(&bytes);
        for length in 0..=LONGEST {
            let turn = pair + length;
            second.copy_from_slice(&bytes);
            second[length + AGREE_PAST[turn % 4]..].iter_mut().for_each(|byte| *byte ^= 0xff);
            for place in (0..=length).rev() {
                if place < length {
                    second[place] ^= 1 << (pair / 12 % 8);
                }
                let [more, others] = LONGER[count % LONGER.len()];
                let found = subject.first_difference(&first[..length + more], &second[..length + others]);
                assert_eq!(
                    found, place as u64,
                    "length {length}, pair {pair}, longer by {more} and {others}"
                );
                count += 1;
                let agrees_again = match turn % 3 {
                    0 => false,
                    1 => true,
                    _ => place % 2 == 0,
                };
                if agrees_again && place < length {
                    second[place] = first[place];
                }
            }
        }
    }
    count
}

#[test]
fn every_length_place_and_alignment() {
    on_each(|subject| println!("{} comparisons", compare_at_every_place(subject)));
}

/// Only one place is such.
#[test]
fn the_parts_agree_up_to_the_place_and_differ_there() {
    generated(|subject, rng| {
        let [first, second] = parts::apart(rng, PAINT);
        let place = answer(subject, Case::first_difference(&first, &second)).status as usize;
        let shorter = first.len().min(second.len());
        assert!(place <= shorter && first[..place] == second[..place]);
        assert!(place == shorter || first[place] != second[place]);
    });
}

#[test]
fn either_order_gives_the_same() {
    generated(|subject, rng| {
        let [first, second] = parts::apart(rng, PAINT);
        let there = answer(subject, Case::first_difference(&first, &second));
        let back = answer(subject, Case::first_difference(&second, &first));
        assert_eq!(there.status, back.status);
    });
}

#[test]
fn what_stands_behind_has_no_say() {
    generated(|subject, rng| {
        let mut pair = parts::apart(rng, PAINT);
        let place = answer(subject, Case::first_difference(&pair[0], &pair[1])).status as usize;
        if place < pair[0].len().min(pair[1].len()) {
            for (part, behind) in pair.iter_mut().zip(parts::apart(rng, PAINT)) {
                part.truncate(place + 1);
                part.extend(behind);
            }
            let case = Case::first_difference(&pair[0], &pair[1]);
            case.expect(subject, &case.differs_at(place)).unwrap();
        }
    });
}

#[test]
fn parts_of_one_memory_are_compared_as_their_copies_are() {
    generated(|subject, rng| {
        let (memory, [first, second]) = parts::shared(rng, PAINT);
        let copies = Case::first_difference(&memory[first.clone()], &memory[second.clone()]);
        let place = answer(subject, copies).status as usize;
        let case = Case::first_difference_within(&memory, [first, second]);
        case.expect(subject, &case.differs_at(place)).unwrap();
    });
}

/// An image of eight events with a true table.
fn counting(spacing: usize) -> Vec<u8> {
    let events: Vec<_> = (1..=8).map(|value| event(5, 0, value)).collect();
    let mut bytes = image::image(&events, spacing);
    assert_eq!(Model.replay(&mut bytes, &mut [0; snapshot::SIZE]), 0);
    bytes
}

/// The image with the bytes of each snapshot past one that `bends` names bent, byte by byte.
fn bent(good: &[u8], start: usize, bends: impl Fn(usize, usize) -> bool) -> Vec<u8> {
    let parts = Parts::of(good);
    let mut bytes = good.to_vec();
    for index in start + 1..parts.snapshots {
        for at in (0..snapshot::SIZE).filter(|&at| bends(index, at)) {
            bytes[parts.snapshot(index) + at] ^= 0x10;
        }
    }
    bytes
}

/// Snapshots that differ from the replay's in one byte alone, the last among them, or agree in
/// one alone: no snapshot agrees, and mending runs to the table's end.
#[test]
fn mending_sees_a_difference_in_any_byte() {
    on_each(|subject| {
        for (spacing, first) in [(1, 0), (1, 3), (2, 3), (3, 0)] {
            let good = counting(spacing);
            let (start, snapshots) = (first / spacing, Parts::of(&good).snapshots);
            for byte in 0..snapshot::SIZE {
                for alone in [true, false] {
                    let bytes = bent(&good, start, |_, at| (at == byte) == alone);
                    let answer = answer(subject, Case::mend(&bytes, first as u64, &[]));
                    assert_eq!(answer.status, 0);
                    let ran = (snapshots - 1 - start) * spacing;
                    assert_eq!(
                        answer.results.span.map(|number| number as usize),
                        [start + 1, snapshots, ran]
                    );
                    assert!(answer.buffer() == good);
                }
            }
        }
    });
}

/// Each snapshot differs in its last byte but one, where mending stops; those behind it stay.
#[test]
fn mending_stops_at_the_one_snapshot_that_agrees() {
    const LAST: usize = snapshot::SIZE - 1;
    let good = counting(1);
    on_each(|subject| {
        for stop in 1..Parts::of(&good).snapshots {
            let bytes = bent(&good, 0, |index, at| index != stop && at == LAST);
            let answer = answer(subject, Case::mend(&bytes, 0, &[]));
            assert_eq!((answer.status, answer.results.span), (0, [1, stop as u32, stop as u32]));
            assert!(answer.buffer() == bent(&good, stop, |_, at| at == LAST));
        }
    });
}

/// The stop, by this call and single runs: whatever the table holds, the first snapshot past the
/// patch that differs nowhere from the state.
#[test]
fn mending_stops_where_there_is_no_difference() {
    generated(|subject, rng| {
        let (bytes, _) = image::valid(rng);
        let parts = Parts::of(&bytes);
        let (first, count) = patch::run(rng, parts);
        let patch = patch::legal(rng, &bytes, (first, count));
        let mended = answer(subject, Case::mend(&bytes, first as u64, patch.as_flattened()));
        if mended.status != 0 {
            return;
        }
        let start = first / parts.spacing;
        let stored = |index| &bytes[parts.snapshot(index)..parts.snapshot(index + 1)];
        let mut state = stored(start).to_vec();
        let mut row = vec![0; parts.spacing];
        let mut ran = 0;
        let stop = (start + 1..parts.snapshots).find(|&index| {
            let place = index * parts.spacing;
            let events = parts.event(place - parts.spacing)..parts.event(place);
            ran += parts.spacing;
            assert_eq!(subject.draw(&mut state, &mended.buffer()[events], &mut row), 0);
            place >= first + count && subject.first_difference(stored(index), &state) == 68
        });
        let span = [start + 1, stop.unwrap_or(parts.snapshots), ran];
        assert_eq!(mended.results.span.map(|number| number as usize), span);
    });
}
