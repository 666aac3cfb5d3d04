//! Day windows: the step of the fails procedure that a class allows r days after the delivery day.

/// Each step has the number of its event kind.
#[derive(Clone, Copy, Debug, PartialEq, Eq)]
pub enum Step {
    Nothing = 0,
    Attempt = 4,
    Cash = 8,
}

pub fn step(class: u8, r: u16) -> Step {
    match class {
        1 => share_step(r),
        2 | 3 => other_step(r),
        _ => Step::Nothing,
    }
}

fn share_step(r: u16) -> Step {
    match r {
        0..=4 => Step::Nothing,
        5..=7 => Step::Attempt,
        _ => Step::Cash,
    }
}

/// From r 27 on the windows come again every ten days.
fn other_step(r: u16) -> Step {
    match r.checked_sub(27).map(|days| days % 10) {
        Some(0) => Step::Attempt,
        Some(3..=9) => Step::Cash,
        _ => Step::Nothing,
    }
}
