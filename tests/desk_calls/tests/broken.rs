//! The checks themselves: each passes on the second implementation, and every
//! broken copy of it fails the check that is there for its fault.

use std::panic::{catch_unwind, AssertUnwindSafe};

use desk_calls::broken::Broken;
use desk_calls::checks::ALL;
use desk_calls::faults::{misfeedings, misreadings, missplits, FAULTS};
use desk_calls::faults::{misgivings, misholdings, mislistings, misnamings, misplacings};
use desk_calls::misfed::Misfed;
use desk_calls::misgiven::Misgiven;
use desk_calls::misheld::Misheld;
use desk_calls::misnamed::Misnamed;
use desk_calls::{Calls, Second};

/// What the check says where it fails.
fn failure(check: fn(&dyn Calls), calls: &dyn Calls) -> Option<String> {
    let said = catch_unwind(AssertUnwindSafe(|| check(calls))).err()?;
    let text = said.downcast::<String>().map(|text| *text);
    Some(text.unwrap_or_default())
}

#[test]
fn sound_copies_pass() {
    for (name, check) in ALL {
        let sound: [&dyn Calls; 4] = [
            &Second::default(),
            &Misnamed::new(None),
            &Misgiven::new(None),
            &Misheld::new(None),
        ];
        for copy in sound {
            assert_eq!(failure(check, copy), None, "{name}");
        }
    }
}

/// The other calls of this copy are the second implementation's own.
#[test]
fn a_sound_copy_passes_the_checks_of_pieces() {
    for (name, check) in ALL {
        if name.contains("feeding") {
            assert_eq!(failure(check, &Misfed::new(None)), None, "{name}");
        }
    }
}

/// The check has to fail for a difference.
fn assert_caught(name: &str, check: fn(&dyn Calls), broken: &dyn Calls) {
    let said = failure(check, broken);
    let said = said.unwrap_or_else(|| panic!("{name} isn't caught"));
    // that some kind of answer was rare is no difference yet
    assert!(!said.contains("came up"), "{name}: {said}");
}

#[test]
fn broken_copies_are_caught() {
    let others = misreadings()
        .into_iter()
        .chain(mislistings())
        .chain(misplacings())
        .chain(missplits());
    for (fault, check) in FAULTS.into_iter().chain(others) {
        assert_caught(&format!("{fault:?}"), check, &Broken::new(fault));
    }
}

#[test]
fn mistakes_about_stations_are_caught() {
    for (naming, checks) in misnamings() {
        for check in checks {
            let misnamed = Misnamed::new(Some(naming));
            assert_caught(&format!("{naming:?}"), check, &misnamed);
        }
    }
}

#[test]
fn mistakes_about_rights_are_caught() {
    for (giving, checks) in misgivings() {
        for check in checks {
            let misgiven = Misgiven::new(Some(giving));
            assert_caught(&format!("{giving:?}"), check, &misgiven);
        }
    }
}

#[test]
fn mistakes_about_the_pairs_held_are_caught() {
    for (holding, checks) in misholdings() {
        for check in checks {
            let misheld = Misheld::new(Some(holding));
            assert_caught(&format!("{holding:?}"), check, &misheld);
        }
    }
}

#[test]
fn mistakes_about_pieces_of_input_are_caught() {
    for (feeding, checks) in misfeedings() {
        for check in checks {
            let misfed = Misfed::new(Some(feeding));
            assert_caught(&format!("{feeding:?}"), check, &misfed);
        }
    }
}
