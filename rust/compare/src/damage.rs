//! Damage to stored plans.

use reference::Plan;
use tables::Generator;

/// A field of a stored plan.
#[derive(Clone, Copy, Debug)]
pub struct Field {
    position: usize,
    width: usize,
}

/// Values that bounds speak of, and those beside them.
const NOTABLE: [u64; 12] = [
    0,
    1,
    2,
    12,
    13,
    170,
    171,
    1000,
    1001,
    65_535,
    65_536,
    u32::MAX as u64,
];

impl Field {
    fn read(self, bytes: &[u8]) -> u64 {
        let mut value = [0; 8];
        value[..self.width].copy_from_slice(&bytes[self.position..][..self.width]);
        u64::from_le_bytes(value)
    }

    /// Writes as much of the value as the field has room for.
    pub fn write(self, bytes: &mut [u8], value: u64) {
        bytes[self.position..][..self.width].copy_from_slice(&value.to_le_bytes()[..self.width]);
    }

    /// Values that differ from the field's: notable ones, and those beside its own.
    pub fn other_values(self, bytes: &[u8]) -> Vec<u64> {
        let value = self.read(bytes);
        let width_mask = (1 << (8 * self.width)) - 1;
        let near = [
            value.wrapping_add(1),
            value.wrapping_sub(1),
            value + 2,
            value ^ 256,
            !value,
        ];
        let mut values: Vec<u64> = near
            .iter()
            .chain(&NOTABLE)
            .map(|other| other & width_mask)
            .filter(|&other| other != value)
            .collect();
        values.sort_unstable();
        values.dedup();
        values
    }
}

/// Every field of a stored plan: head, contents, cells and counts.
pub fn fields(plan: &Plan) -> Vec<Field> {
    let contents = 2 * (plan.arrays.len() + 1);
    let cells = plan.table.cells.len();
    let counts = cells * plan.arrays.len();
    let head = [2, 1, 1, 2, 2];
    let widths = head
        .into_iter()
        .chain(std::iter::repeat_n(4, contents + cells))
        .chain(std::iter::repeat_n(2, counts));
    let mut position = 0;
    let mut all = Vec::new();
    for width in widths {
        all.push(Field { position, width });
        position += width;
    }
    all
}

/// Changes one random field to another value.
pub fn change_field(generator: &mut Generator, fields: &[Field], bytes: &mut [u8]) {
    let field = generator.pick(fields);
    let values = field.other_values(bytes);
    let value = generator.pick(&values);
    field.write(bytes, value);
}

/// The stored plan, and such as do not open: too long, too short, empty, and with
/// random fields changed.
pub fn good_and_damaged(generator: &mut Generator, plan: &Plan) -> Vec<Vec<u8>> {
    let good = reference::encode(plan);
    let fields = fields(plan);
    let mut all = vec![
        good.clone(),
        [&good[..], &[0]].concat(),
        good[..good.len() - 1].to_vec(),
        Vec::new(),
    ];
    for changes in [1, 1, 1, 2] {
        let mut bytes = good.clone();
        for _ in 0..changes {
            change_field(generator, &fields, &mut bytes);
        }
        all.push(bytes);
    }
    all
}
