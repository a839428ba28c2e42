//! Each wrong subject is caught by the same cases that the archive passes.

use std::cell::Cell;

use hsc_tests::harness::{
    self,
    slip::{Reading, Running, Slip},
};

#[test]
fn every_slip_is_caught() {
    for slip in Slip::all() {
        let failure = harness::run(&slip, 1, 0..100_000).err();
        let failure = failure.unwrap_or_else(|| panic!("{slip:?} passes"));
        let line = failure.lines().next().unwrap_or_default();
        println!("{slip:?}: {}", &line[..line.len().min(150)]);
    }
}

/// The wrong mends are caught by demand 3 alone, without the model's answers.
#[test]
fn demand_3_alone_catches_wrong_mends() {
    let wrong = [
        Slip::MendTouchesNothing,
        Slip::MendNods(false.into()),
        Slip::MendStopsInRun,
        Slip::MendNamesEnd,
        Slip::StampLeftOut,
    ];
    for slip in wrong.into_iter().chain(Running::ALL.map(Slip::Run)) {
        let caught = harness::run_demand_3(&slip, 1, 0..20_000);
        assert!(caught.is_err(), "{slip:?} passes");
    }
}

/// These wrong readers are caught by two cuttings of the same bytes alone.
#[test]
fn two_cuttings_alone_catch_wrong_readers() {
    for rule in [
        Reading::OneEventLate,
        Reading::TakesPast,
        Reading::CountsChunk,
        Reading::LooksAhead,
        Reading::LastKept,
        Reading::LengthFirst,
        Reading::BufferWritten,
        Reading::RefusalTakes,
        Reading::Remembers9,
        Reading::RememberedBefore9,
        Reading::ForgetsChunk,
        Reading::ForgetsEnd,
        Reading::PlaceForgotten,
        Reading::EndOnce(Cell::new(0)),
        Reading::EmptyRefused,
        Reading::EmptyHolds,
        Reading::TableRead,
        Reading::EventLeft,
        Reading::StateLeft,
    ] {
        let slip = Slip::Read(rule);
        let failure = harness::run_cuttings(&slip, 1, 0..2_000).err();
        println!("{slip:?}: {}", failure.unwrap_or_else(|| panic!("{slip:?} passes")));
    }
}
