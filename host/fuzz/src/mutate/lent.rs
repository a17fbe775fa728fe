//! The lengths of what is lent, at their limits.

use super::one_of;
use formats::random::Random;
use formats::script::Lengths;

pub fn change(lengths: &mut Lengths, random: &mut Random) {
    match random.below(4) {
        0 => lengths.answer = one_of(&[0, 1, 1_467, 1_468, 1_469, 1_600], random),
        1 => lengths.area = one_of(&[0, 1, 65_535, 65_536, 65_537, 65_600], random),
        2 => lengths.table = one_of(&[0, 7, 8, 9], random),
        _ => {
            *lengths = Lengths {
                answer: 1_468,
                area: 65_536,
                table: 8,
            }
        }
    }
}
