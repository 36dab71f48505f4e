//! The six steps. Each file has the call of document 01, with every check, and below it the step
//! itself on a table already checked, which the automatic run tries too.

mod merge_back;
mod prune;
mod share_inputs;
mod share_outputs;
mod shrink;
mod star;

pub use merge_back::{merge_back, try_merge_back};
pub use prune::{prune, try_prune};
pub use share_inputs::{share_inputs, try_share_inputs};
pub use share_outputs::{share_outputs, try_share_outputs};
pub use shrink::{shrink, try_shrink};
pub use star::{plan_star, star, try_star};

use crate::delays::NONE;
use crate::refusal::{self, Refusal};

/// The one number by which `b`'s delays exceed `a`'s, over two rows or two columns of the matrix.
fn common_difference<'m>(
    a: impl Iterator<Item = &'m i64>,
    b: impl Iterator<Item = &'m i64>,
) -> Result<i64, Refusal> {
    let mut common = None;
    for (&of_a, &of_b) in a.zip(b) {
        if of_a == NONE && of_b == NONE {
            continue;
        }
        if of_a == NONE || of_b == NONE {
            return Err(refusal::NO_COMMON_DIFFERENCE);
        }
        let difference = of_b - of_a;
        if *common.get_or_insert(difference) != difference {
            return Err(refusal::NO_COMMON_DIFFERENCE);
        }
    }
    common.ok_or(refusal::NO_COMMON_DIFFERENCE)
}
