//! That the used pointers of a drawing in hand lie in their maps, broken for each by itself.

use super::{draws, from, of_record, Rule};
use model::operations::Operations;
use model::{Coprocessor, Registers};

/// A pointer along one side of a map.
struct Pointer {
    name: &'static str,
    is_used: fn(&Operations) -> bool,
    /// The pointer's register.
    register: fn(&mut Registers) -> &mut u16,
    /// The last pointer in the map.
    last: fn(&Registers, &Operations) -> u16,
}

const POINTERS: [Pointer; 4] = [
    Pointer {
        name: "source X outside",
        is_used: Operations::uses_source,
        register: |registers| &mut registers.source_x,
        last: |registers, fields| registers.map(fields.source).width,
    },
    Pointer {
        name: "source Y outside",
        is_used: Operations::uses_source,
        register: |registers| &mut registers.source_y,
        last: |registers, fields| registers.map(fields.source).height,
    },
    Pointer {
        name: "pattern X outside",
        is_used: Operations::uses_pattern,
        register: |registers| &mut registers.pattern_x,
        last: |registers, fields| registers.map(fields.pattern).width,
    },
    Pointer {
        name: "pattern Y outside",
        is_used: Operations::uses_pattern,
        register: |registers| &mut registers.pattern_y,
        last: |registers, fields| registers.map(fields.pattern).height,
    },
];

/// The rules, each broken just outside the map or further outside.
pub fn rules() -> Vec<Rule> {
    let rules = POINTERS.into_iter().map(|pointer| {
        let first_outside = move |state: &Coprocessor| {
            let fields = state.registers.fields();
            u32::from((pointer.last)(&state.registers, &fields)) + 1
        };
        let fits = move |state: &Coprocessor| {
            let is_used = draws(state) && (pointer.is_used)(&state.registers.fields());
            is_used && first_outside(state) <= 4_095
        };
        let breaks = move |random: &mut _, state: &mut Coprocessor| {
            let outside = from(random, first_outside(state), 4_095) as u16;
            *(pointer.register)(&mut state.registers) = outside;
        };
        of_record(pointer.name, fits, breaks)
    });
    rules.collect()
}
