//! Damages to programs. Each aims at one fault, but any may come of it.

mod fields;
mod operands;
mod order;
mod place;
mod whole;

use crate::program::Case;
use crate::rng::Rng;

type Damage = fn(&mut Rng, &mut Case);

/// Some stand here twice because they often find nothing to damage.
const DAMAGES: [Damage; 41] = [
    whole::wrong_edition,
    whole::too_short,
    whole::wrong_first_byte,
    whole::wrong_version,
    whole::wrong_type_id,
    whole::wrong_stage,
    whole::other_stage,
    whole::other_edition,
    whole::ragged_end,
    whole::too_many_tokens,
    fields::unlisted_opcode,
    fields::high_opcode_byte,
    fields::other_opcode,
    fields::added_opcode,
    fields::fragment_opcode,
    fields::stray_in_unused,
    fields::stray_in_unused,
    fields::stray_in_used,
    fields::stray_everywhere,
    fields::destination_type,
    fields::destination_number,
    fields::no_mask,
    fields::w_in_mask,
    operands::indirect_bit,
    operands::faulty_index,
    operands::faulty_index,
    operands::source_type,
    operands::source_number,
    operands::direct_offset,
    operands::swizzle,
    operands::swizzle,
    operands::sampler_setting,
    operands::sampler_setting,
    operands::sampler_number,
    order::stray_branch_token,
    order::too_deep,
    order::lost_token,
    order::lost_end,
    operands::read_temporary,
    order::swapped_tokens,
    order::any_bits,
];

/// Damages a program in one way.
pub fn damage(rng: &mut Rng, case: &mut Case) {
    let damage = rng.pick(&DAMAGES);
    damage(rng, case);
}
