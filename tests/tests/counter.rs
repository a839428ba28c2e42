//! Document 01's own rows of the counter: the bench table, the load rows, single events and
//! the snapshot's layout; and the rows of document 02, requests 4, 6 and 7.

use hsc_tests::generate::event::event;
use hsc_tests::generate::state::{loaded, p};
use hsc_tests::model::counter::Counter;
use hsc_tests::model::event::Bytes;
use hsc_tests::model::flags::*;
use hsc_tests::model::settings::Settings;
use hsc_tests::model::snapshot::{decode, encode};
use hsc_tests::subject::{on_each, Subject};

const DONE: (u8, u8, i32) = (7, 0, 0);
const ENTER_RUN: (u8, u8, i32) = (8, 0, 0);
const PRESET_LOAD: (u8, u8, i32) = (6, 0, 0);
const AS_ON: (u8, u8, i32) = (3, 4, 1);
const SP_ON: (u8, u8, i32) = (4, 6, 1);
const SP_OFF: (u8, u8, i32) = (4, 6, 0);
/// One count in mode 2, from levels 0.
const UP: (u8, u8, i32) = (1, 0, 1);
const DOWN: (u8, u8, i32) = (1, 0, 3);
/// Levels 0 again, for another count.
const BACK: (u8, u8, i32) = (1, 0, 0);

fn after(subject: &dyn Subject, counter: Counter, events: &[(u8, u8, i32)]) -> Counter {
    let mut snapshot = encode(&counter);
    for &(kind, sub, value) in events {
        let event: Bytes = event(kind, sub, value);
        assert_eq!(subject.step(&mut snapshot, &event), 0, "event {kind} {sub} {value}");
    }
    decode(&snapshot)
}

#[test]
fn bench_rows_a_to_j() {
    let mode_0 = Settings { pfn: 3, hip: 3, ovf: 10, ..Settings::default() };
    let rows = [
        ('a', p(), 3, UP, 4, 2, 0),
        ('b', p(), 5, UP, -3, 4, OF),
        ('c', p(), -3, UP, -2, 0, 0),
        ('d', p(), -1, DOWN, -2, 1, 0),
        ('e', p(), -3, DOWN, 5, 3, UF),
        ('f', p(), 9, UP, -3, 4, OF),
        ('g', p(), 9, DOWN, 8, 0, 0),
        ('h', mode_0, 2, UP, 0, 2, MD),
        ('i', mode_0, 3, UP, 4, 0, 0),
        ('j', mode_0, 10, UP, 0, 4, OF),
    ];
    on_each(|subject| {
        for (row, settings, from, count, acc, cause, sticky) in rows {
            let counter = after(subject, loaded(settings, from), &[count]);
            assert_eq!((counter.acc, counter.running, counter.waiting), (acc, cause, [0, 0]), "row {row}");
            assert_eq!(counter.flags & (UF | OF | MD), sticky, "row {row}");
            assert_eq!(counter.has(DIR), count == UP, "row {row}");
        }
    });
}

#[test]
fn bench_row_k() {
    let settings = Settings { hpo: 15, omb: 13, ..p() };
    on_each(|subject| {
        for (outputs, want) in [(2, 15), (0, 13)] {
            let counter = Counter { outputs, ..loaded(settings, 3) };
            assert_eq!(after(subject, counter, &[UP]).outputs, want);
        }
        // The staged mask has no say, and a dropped cause puts its outputs all the same.
        let mut counter = loaded(settings, 3);
        counter.staged.omb = 0xffff;
        counter.flags &= !FE;
        let counter = after(subject, counter, &[UP]);
        assert_eq!((counter.outputs, counter.running), (13, 0));
    });
}

#[test]
fn bench_row_l() {
    let mut counter = Counter { running: 2, waiting: [1, 4], ..loaded(p(), -3) };
    counter.flags |= HPI;
    on_each(|subject| {
        let lost = after(subject, counter, &[DOWN]);
        assert!(lost.has(UIL | HPI | UF));
        assert_eq!((lost.running, lost.waiting), (2, [1, 4]));
        let done = after(subject, lost, &[DONE]);
        assert_eq!((done.running, done.waiting), (1, [4, 0]));
        assert_eq!(done.flags & INTERRUPTS, LPI);
        let none = after(subject, done, &[DONE, DONE]);
        assert_eq!((none.running, none.waiting), (0, [0, 0]));
        assert_eq!(none.flags & INTERRUPTS, OFI);
        assert_eq!(after(subject, none, &[DONE]), none);
    });
}

#[test]
fn a_cause_that_waits_comes_again() {
    // Running, waiting, a count from this ACC; then who waits, and whether one is lost.
    let rows = [
        (2, [0, 0], 3, UP, [2, 0], false),
        (2, [2, 0], 3, UP, [2, 0], false),
        (2, [1, 0], 3, UP, [1, 2], false),
        (2, [2, 1], 3, UP, [2, 1], false),
        (2, [1, 2], 3, UP, [1, 2], false),
        (2, [1, 4], 3, UP, [1, 4], true),
        (4, [1, 0], -1, DOWN, [1, 0], false),
        (4, [1, 2], -1, DOWN, [1, 2], false),
        (4, [2, 1], -1, DOWN, [2, 1], false),
        (4, [2, 3], -1, DOWN, [2, 3], true),
        (1, [3, 0], -3, DOWN, [3, 0], false),
        (3, [2, 3], -3, DOWN, [2, 3], false),
        (3, [2, 4], -3, DOWN, [2, 4], true),
        (4, [4, 0], 5, UP, [4, 0], false),
        (1, [4, 3], 5, UP, [4, 3], false),
        (4, [1, 3], 5, UP, [1, 3], true),
    ];
    let settings = Settings { omb: 3, hpo: 1, lpo: 2, ..p() };
    on_each(|subject| {
        for (running, waiting, from, count, then, lost) in rows {
            let row = format!("{running} {waiting:?}, from {from}");
            let before = Counter { running, waiting, ..loaded(settings, from) };
            let counter = after(subject, before, &[count]);
            assert_eq!((counter.running, counter.waiting), (running, then), "{row}");
            assert_eq!(counter.has(UIL), lost, "{row}");
            // One that was lost before stays told, and the outputs are those of a cause that starts.
            let told = Counter { flags: before.flags | UIL, ..before };
            assert_eq!(after(subject, told, &[count]), Counter { flags: counter.flags | UIL, ..counter });
            let first = after(subject, loaded(settings, from), &[count]);
            assert_eq!((counter.outputs, counter.acc), (first.outputs, first.acc), "{row}");
            // FE, UIE and the masks are asked first.
            for off in [FE, UIE, MASKS] {
                let masked = Counter { flags: before.flags & !off, ..before };
                let counter = after(subject, masked, &[count]);
                assert_eq!((counter.waiting, counter.has(UIL)), (waiting, false), "{row}");
            }
        }
    });
}

#[test]
fn an_auger_that_rocks() {
    on_each(|subject| {
        // Over the high preset: it runs, and waits once.
        let mut counter = after(subject, loaded(p(), 3), &[UP]);
        for _ in 0..100 {
            counter = after(subject, counter, &[BACK, DOWN, BACK, UP]);
            assert_eq!((counter.acc, counter.running, counter.waiting), (4, 2, [2, 0]));
        }
        assert!(!counter.has(UIL));
        // Over both presets.
        let [downs, ups] = [DOWN, UP].map(|count| [BACK, count].repeat(6));
        for _ in 0..100 {
            counter = after(subject, counter, &downs);
            assert_eq!((counter.acc, counter.running, counter.waiting), (-2, 2, [2, 1]));
            counter = after(subject, counter, &ups);
            assert_eq!((counter.acc, counter.running, counter.waiting), (4, 2, [2, 1]));
        }
        assert!(!counter.has(UIL));
        // Past the limit, a third cause finds no place.
        let lost = after(subject, counter, &[BACK, UP, BACK, UP]);
        assert_eq!((lost.acc, lost.running, lost.waiting), (-3, 2, [2, 1]));
        assert!(lost.has(UIL | OF));
        // Taken from the desk one after another, and free to wait again.
        let done = after(subject, counter, &[DONE]);
        assert_eq!((done.running, done.waiting), (2, [1, 0]));
        let again = after(subject, done, &[BACK, DOWN, BACK, UP]);
        assert_eq!((again.running, again.waiting), (2, [1, 2]));
    });
}

#[test]
fn snapshots_with_causes_that_wait() {
    on_each(|subject| {
        let mut fields = [0; 32];
        for running in 0..6 {
            for first in 0..6 {
                for second in 0..6 {
                    let formed = [running, first, second].iter().all(|&cause| cause <= 4)
                        && match [first, second] {
                            [0, 0] => true,
                            [first, second] => running != 0 && first != 0 && first != second,
                        };
                    let counter = Counter { running, waiting: [first, second], ..Counter::fresh() };
                    let refusal = if formed { 0 } else { 6 };
                    let desk = [running, first, second];
                    assert_eq!(subject.read(&encode(&counter), &mut fields), refusal, "{desk:?}");
                }
            }
        }
    });
}

#[test]
fn load_rows() {
    let rows = [
        (Settings { pfn: 2, ..p() }, 1),
        (Settings { pfn: 256, ..p() }, 1),
        (Settings { pfn: 3, ..p() }, 0),
        (Settings { pfn: 255, ..p() }, 0),
        (Settings { pfn: 2, mode: 8, ..p() }, 1),
        (Settings { mode: 8, ..p() }, 2),
        (Settings { mode: -1, ..p() }, 2),
        (Settings { hip: -2, ..p() }, 3),
        (Settings { mode: 1, hip: 0, ..p() }, 3),
        (Settings { hip: 5, ..p() }, 0),
        (Settings { hip: 6, ..p() }, 4),
        (Settings { lop: -4, ..p() }, 5),
        (Settings { mode: 1, lop: -4, ..p() }, 0),
        (Settings { omb: 0x0fff, ..p() }, 0),
        (Settings { omb: 0x1000, ..p() }, 6),
        (Settings { omb: 0x2000, ..p() }, 6),
        (Settings { omb: 0x4fff, ..p() }, 6),
        (Settings { omb: 0x8001, ..p() }, 6),
        (Settings { omb: 0xffff, ..p() }, 6),
        (Settings { omb: 0x1000, mode: 1, ..p() }, 6),
        (Settings { omb: 0x1000, lop: -4, ..p() }, 5),
        (Settings { omb: 0x1000, hip: 6, ..p() }, 4),
        (Settings { omb: 0x1000, hip: -2, ..p() }, 3),
        (Settings { omb: 0x1000, mode: 8, ..p() }, 2),
        (Settings { omb: 0x1000, pfn: 2, ..p() }, 1),
    ];
    on_each(|subject| {
        for (staged, er) in rows {
            let before = Counter { staged, ..Counter::fresh() };
            let active = if er == 0 { staged } else { Settings::default() };
            let counter = after(subject, before, &[SP_ON]);
            assert_eq!((counter.er, counter.active), (er, active), "{staged:?}");
            assert!(counter.has(SP));
            assert_eq!((counter.has(ED), counter.has(LOADED)), (er != 0, er == 0));
            let counter = after(subject, before, &[AS_ON, ENTER_RUN]);
            assert_eq!((counter.er, counter.active, counter.staged), (er, active, staged), "{staged:?}");
            assert_eq!((counter.has(ED), counter.has(LOADED), counter.has(FE)), (er != 0, er == 0, er == 0));
        }
    });
}

#[test]
fn sp_loads_only_when_it_rises() {
    let wrong = [(3, 1, 2), SP_ON];
    on_each(|subject| {
        let rejected = after(subject, loaded(p(), 0), &wrong);
        assert_eq!((rejected.er, rejected.active), (1, p()));
        assert!(rejected.has(ED | LOADED | SP));
        let again = after(subject, rejected, &[(3, 1, 7), SP_ON]);
        assert_eq!((again.er, again.active.pfn), (1, 3));
        let risen = after(subject, again, &[SP_OFF, SP_ON]);
        assert_eq!((risen.er, risen.active.pfn), (0, 7));
    });
}

#[test]
fn preset_load_takes_all_four_or_none() {
    let staged = Settings { pfn: 9, mode: 9, hip: 1, lop: 0, ovf: -9, unf: 9, omb: 1, hpo: 2, lpo: 3 };
    on_each(|subject| {
        let counter = after(subject, Counter { staged, ..loaded(p(), 0) }, &[PRESET_LOAD]);
        assert_eq!(counter.active, Settings { hip: 1, lop: 0, hpo: 2, lpo: 3, ..p() });
        for (changed, er) in [((2, 1, 0), 3), ((2, 1, 6), 4), ((2, 2, -4), 5)] {
            let rejected = after(subject, counter, &[changed, PRESET_LOAD]);
            assert_eq!((rejected.er, rejected.active), (er, counter.active));
            assert!(rejected.has(ED));
        }
        let unloaded = Counter { staged, ..Counter::fresh() };
        assert_eq!(after(subject, unloaded, &[PRESET_LOAD]), unloaded);
    });
}

#[test]
fn preset_load_does_not_look_at_omb() {
    on_each(|subject| {
        for omb in [0x1000, 0x2000, 0x4000, 0x8000, 0xf000, 0xffff] {
            let loaded = loaded(Settings { omb: 0x0fff, ..p() }, 0);
            let before = after(subject, loaded, &[(3, 3, omb), (2, 1, 3), (2, 5, 7)]);
            let counter = after(subject, before, &[PRESET_LOAD]);
            assert_eq!(counter.active, Settings { hip: 3, hpo: 7, ..loaded.active });
            assert_eq!((counter.er, counter.staged), (0, before.staged));
            let rejected = after(subject, before, &[(2, 2, -4), PRESET_LOAD]);
            assert_eq!((rejected.er, rejected.active), (5, loaded.active));
            // Rejected by 6, and accepted again by the presets alone.
            let six = after(subject, before, &[SP_ON]);
            assert_eq!((six.er, six.active, six.staged), (6, loaded.active, before.staged));
            assert!(six.has(ED | LOADED));
            let again = after(subject, six, &[PRESET_LOAD]);
            assert_eq!((again.er, again.active), (0, counter.active));
            assert!(!again.has(ED));
        }
    });
}

#[test]
fn snapshots_with_a_mask_over_no_output() {
    on_each(|subject| {
        let mut fields = [0; 32];
        for bit in 0..16 {
            let active = Settings { omb: 1 << bit, ..p() };
            let refusal = if bit < 12 { 0 } else { 6 };
            assert_eq!(subject.read(&encode(&loaded(active, 0)), &mut fields), refusal, "active, bit {bit}");
            let staged = Counter { staged: active, ..loaded(p(), 0) };
            assert_eq!(subject.read(&encode(&staged), &mut fields), 0, "staged, bit {bit}");
            let unloaded =
                Counter { active: Settings { omb: 1 << bit, ..Settings::default() }, ..Counter::fresh() };
            assert_eq!(subject.read(&encode(&unloaded), &mut fields), 6, "not loaded, bit {bit}");
        }
        for er in 0..10 {
            let flags = Counter::fresh().flags | if er == 0 { 0 } else { ED };
            let counter = Counter { er, flags, ..Counter::fresh() };
            let refusal = if er <= 6 { 0 } else { 6 };
            assert_eq!(subject.read(&encode(&counter), &mut fields), refusal, "ER {er}");
        }
    });
}

#[test]
fn enter_run_empties_the_queue_and_loads_by_as() {
    let mut counter = Counter { running: 2, waiting: [1, 4], ..loaded(p(), 3) };
    counter.flags = counter.flags & !FE | HPI | UIL | UF;
    on_each(|subject| {
        let without = after(subject, counter, &[ENTER_RUN]);
        assert_eq!((without.running, without.waiting, without.acc), (0, [0, 0], 3));
        assert_eq!(without.flags, counter.flags & !HPI);
        let accepted = after(subject, counter, &[(3, 4, 1), (3, 1, 7), ENTER_RUN]);
        assert_eq!(accepted.active.pfn, 7);
        assert!(accepted.has(FE | AS | UIL | UF));
        let rejected = after(subject, counter, &[(3, 4, 1), (3, 1, 0), ENTER_RUN]);
        assert_eq!((rejected.er, rejected.active.pfn), (1, 3));
        assert!(!rejected.has(FE));
    });
}

#[test]
fn counts_by_mode() {
    // Levels before, levels after, and the count in modes 0 to 7; -10 is the reset from 10.
    let rows: [(u8, u8, [i32; 8]); 16] = [
        (0, 1, [1, 1, 1, 1, 1, 1, 1, 1]),
        (0, 3, [1, 1, -1, -1, 0, 0, 0, 0]),
        (2, 3, [1, 1, -1, -1, 1, 1, 0, 0]),
        (2, 1, [1, 1, 1, 1, 1, 1, 1, 1]),
        (0, 2, [0, 0, 0, 0, -1, -1, 0, 0]),
        (1, 0, [0, 0, 0, 0, 0, 0, -1, -1]),
        (3, 0, [0, 0, 0, 0, 0, 0, -1, -1]),
        (1, 2, [0, 0, 0, 0, -1, -1, 0, 0]),
        (1, 1, [0, 0, 0, 0, 0, 0, 0, 0]),
        (0, 9, [1, 0, 1, 0, 1, 0, 1, 0]),
        (4, 5, [1, 1, 1, 1, 1, 1, 1, 0]),
        (0, 5, [1, -10, 1, -10, 1, -10, 1, 0]),
        (0, 4, [0, -10, 0, -10, 0, -10, 0, 0]),
        (5, 4, [0, 0, 0, 0, 0, 0, -1, -10]),
        (1, 4, [0, -10, 0, -10, 0, -10, -1, -10]),
        (5, 0, [0, 0, 0, 0, 0, 0, -1, -1]),
    ];
    on_each(|subject| {
        for (old, new, counts) in rows {
            for (mode, count) in (0..).zip(counts) {
                let settings = Settings { mode, hip: 90, ovf: 99, lop: -90, unf: -99, ..p() };
                let before = Counter { levels: old, ..loaded(settings, 10) };
                let counter = after(subject, before, &[(1, 0, new.into())]);
                assert_eq!(counter.acc, 10 + count, "mode {mode}, levels {old} to {new}");
                assert_eq!((counter.levels, counter.running), (new, 0));
                let off = Counter { flags: before.flags & !CE, ..before };
                let counter = after(subject, off, &[(1, 0, new.into())]);
                assert_eq!(counter.acc, if count == -10 { 0 } else { 10 });
            }
        }
    });
}

/// Settings whose low preset is 0, where a reset goes; the limits are far away.
fn low_at_0(mode: i16) -> Settings {
    Settings { mode, hip: 90, lop: 0, ovf: 99, unf: -99, omb: 0xff, hpo: 1, lpo: 2, ..p() }
}

/// Takes one sample from ACC 10, from each of the old levels, and expects this ACC: 11 and 9 come
/// with DIR on and off, and all else but the levels stays.
fn expect_acc(subject: &dyn Subject, mode: i16, ce: bool, old: &[u8], new: u8, acc: i32) {
    for &levels in old {
        for dir in [0, DIR] {
            let mut before = Counter { levels, ..loaded(low_at_0(mode), 10) };
            before.flags = before.flags & !CE | if ce { CE } else { 0 } | dir;
            let flags = match acc {
                11 => before.flags | DIR,
                9 => before.flags & !DIR,
                _ => before.flags,
            };
            let counter = after(subject, before, &[(1, 0, new.into())]);
            let want = Counter { levels: new, acc, flags, ..before };
            assert_eq!(counter, want, "mode {mode}, CE {ce}, levels {levels} to {new}");
        }
    }
}

#[test]
fn input_0_moves_in_modes_6_and_7() {
    // B, Z, hold and CE; then ACC from 10 in modes 6 and 7 where A falls, and where it rises. What
    // B, Z and hold were before has no say.
    let rows = [
        (0, 0, 0, 0, [10, 10], [10, 10]),
        (0, 0, 0, 1, [9, 9], [11, 11]),
        (0, 0, 1, 0, [10, 10], [10, 10]),
        (0, 0, 1, 1, [9, 10], [11, 10]),
        (0, 1, 0, 0, [10, 0], [10, 10]),
        (0, 1, 0, 1, [9, 0], [11, 10]),
        (0, 1, 1, 0, [10, 0], [10, 10]),
        (0, 1, 1, 1, [9, 0], [11, 10]),
        (1, 0, 0, 0, [10, 10], [10, 10]),
        (1, 0, 0, 1, [10, 10], [10, 10]),
        (1, 0, 1, 0, [10, 10], [10, 10]),
        (1, 0, 1, 1, [10, 10], [10, 10]),
        (1, 1, 0, 0, [10, 10], [10, 10]),
        (1, 1, 0, 1, [10, 10], [10, 10]),
        (1, 1, 1, 0, [10, 10], [10, 10]),
        (1, 1, 1, 1, [10, 10], [10, 10]),
    ];
    on_each(|subject| {
        for (b, z, hold, ce, fallen, risen) in rows {
            let off = 2 * b + 4 * z + 8 * hold;
            for (mode, fallen, risen) in [(6, fallen[0], risen[0]), (7, fallen[1], risen[1])] {
                expect_acc(subject, mode, ce == 1, &[1, 3, 5, 7, 9, 11, 13, 15], off, fallen);
                expect_acc(subject, mode, ce == 1, &[0, 2, 4, 6, 8, 10, 12, 14], off + 1, risen);
            }
        }
    });
}

#[test]
fn input_2_rises_in_odd_modes() {
    // Alone, with the other inputs off or on; ACC from 10 in modes 1, 3, 5 and 7.
    on_each(|subject| {
        for others in [0, 1, 2, 3, 8, 9, 10, 11] {
            for (mode, acc) in [(1, 0), (3, 0), (5, 0), (7, 10)] {
                for ce in [false, true] {
                    expect_acc(subject, mode, ce, &[others], others + 4, acc);
                }
            }
        }
    });
}

#[test]
fn modes_1_3_and_5_do_not_reset_as_mode_7_does() {
    // A falls with B off and Z on, which was on before.
    on_each(|subject| {
        for (mode, acc) in [(1, 10), (3, 10), (5, 10), (7, 0)] {
            for ce in [false, true] {
                expect_acc(subject, mode, ce, &[5, 7], 4, acc);
            }
        }
    });
}

#[test]
fn mode_7_resets_from_anywhere_and_raises_nothing() {
    let low = low_at_0(7);
    let high = Settings { hip: 0, lop: -90, ..low };
    on_each(|subject| {
        for settings in [low, high] {
            for acc in [i32::MIN, -99, -90, -1, 0, 1, 90, 99, i32::MAX] {
                for dir in [0, DIR] {
                    let before = Counter { levels: 5, ..loaded(settings, acc) };
                    let before = Counter { flags: before.flags | dir, ..before };
                    let want = Counter { levels: 4, acc: 0, ..before };
                    assert_eq!(after(subject, before, &[(1, 0, 4)]), want, "from {acc}");
                }
            }
        }
    });
}

#[test]
fn mode_7_not_loaded() {
    let staged = Settings { mode: 7, ..p() };
    let before = Counter { staged, acc: 10, flags: CE | DIR, ..Counter::fresh() };
    on_each(|subject| {
        for (old, new) in [(1, 4), (5, 4), (0, 4), (1, 0), (0, 1)] {
            let counter = after(subject, Counter { levels: old, ..before }, &[(1, 0, new.into())]);
            assert_eq!(counter, Counter { levels: new, ..before }, "levels {old} to {new}");
        }
    });
}

#[test]
fn counts_at_the_ends_of_32_bits() {
    let widest = Settings { hip: i32::MAX, ovf: i32::MAX, lop: i32::MIN, unf: i32::MIN, ..p() };
    on_each(|subject| {
        for (from, count, acc, cause) in [
            (i32::MAX, UP, i32::MIN, 4),
            (i32::MIN, DOWN, i32::MAX, 3),
            (i32::MAX - 1, UP, i32::MAX, 2),
            (i32::MIN + 1, DOWN, i32::MIN, 1),
        ] {
            let counter = after(subject, loaded(widest, from), &[count]);
            assert_eq!((counter.acc, counter.running), (acc, cause));
        }
    });
}

#[test]
fn program_word_keeps_outputs_of_the_mask() {
    on_each(|subject| {
        let fresh = after(subject, Counter::fresh(), &[(3, 3, 0x00ff), (9, 0, 0xffff)]);
        assert_eq!(fresh.outputs, 0x0fff);
        let masked = loaded(Settings { omb: 0x00f0, ..p() }, 0);
        let counter = after(subject, Counter { outputs: 0x0011, ..masked }, &[(9, 0, 0xabcd)]);
        assert_eq!(counter.outputs, 0x0b1d);
    });
}

#[test]
fn snapshot_layout() {
    let staged = Settings {
        pfn: -2,
        mode: 0x0102,
        hip: 0x03040506,
        lop: -3,
        ovf: 0x0708090a,
        unf: i32::MIN,
        omb: 0x0b0c,
        hpo: 0x0d0e,
        lpo: 0xf00f,
    };
    let counter = Counter {
        staged,
        active: Settings { omb: 0x0a12, ..p() },
        acc: -2,
        outputs: 0x0213,
        er: 6,
        flags: LOADED | ED | CE | MD,
        levels: 9,
        running: 4,
        waiting: [3, 1],
    };
    #[rustfmt::skip]
    let bytes = [
        0xfe, 0xff, 2, 1, 6, 5, 4, 3, 0xfd, 0xff, 0xff, 0xff, 10, 9, 8, 7, 0, 0, 0, 0x80,
        0x0c, 0x0b, 0x0e, 0x0d, 0x0f, 0xf0,
        3, 0, 2, 0, 4, 0, 0, 0, 0xfe, 0xff, 0xff, 0xff, 5, 0, 0, 0, 0xfd, 0xff, 0xff, 0xff,
        0x12, 0x0a, 0, 0, 0, 0,
        0xfe, 0xff, 0xff, 0xff, 0x13, 2, 6, 0, 0x30, 0, 0x0c, 0, 9, 4, 3, 1,
    ];
    assert_eq!(encode(&counter), bytes);
    assert_eq!(decode(&bytes), counter);
    let want = [
        -2,
        0x0102,
        0x03040506,
        -3,
        0x0708090a,
        i32::MIN,
        0x0b0c,
        0x0d0e,
        0xf00f, // staged
        3,
        2,
        4,
        -2,
        5,
        -3,
        0x0a12,
        0,
        0, // active
        -2,
        0x0213,
        6,
        0x000c_0030,
        9,
        4,
        3,
        1, // the rest
        1,
        1,
        1,
        1,
        0,
        1, // UIX, UIP, CU, CD, HPR, LPR
    ];
    on_each(|subject| {
        let mut fields = [0; 32];
        assert_eq!(subject.read(&bytes, &mut fields), 0);
        assert_eq!(fields, want);
    });
}

#[test]
fn shown_bits() {
    let mode_1 = Settings { mode: 1, ..p() };
    let fresh = Counter { flags: CE | MASKS, ..Counter::fresh() };
    let rows = [
        (Counter::fresh(), [0, 0, 0, 0, 0, 0]),
        (fresh, [0, 0, 1, 0, 0, 0]),
        (loaded(p(), 4), [0, 0, 1, 1, 1, 0]),
        (loaded(p(), 3), [0, 0, 1, 1, 0, 0]),
        (loaded(p(), -2), [0, 0, 1, 1, 0, 1]),
        (loaded(mode_1, -2), [0, 0, 1, 0, 0, 0]),
        (Counter { running: 1, ..loaded(mode_1, 9) }, [1, 0, 1, 0, 1, 0]),
        (Counter { running: 1, waiting: [1, 0], ..loaded(p(), 0) }, [1, 1, 1, 1, 0, 0]),
    ];
    on_each(|subject| {
        for (counter, shown) in rows {
            let mut fields = [0; 32];
            assert_eq!(subject.read(&encode(&counter), &mut fields), 0);
            assert_eq!(fields[26..], shown, "{counter:?}");
        }
    });
}
