//! The eight kinds of gates: their names, signs, numbers of inputs and rules of value.
//!
//! "The kind table has one row for each of the eight kinds: name, output sign, input signs, least and greatest number of
//! inputs. Each kind has its own rule of value."

#[derive(Clone, Copy, Debug, PartialEq, Eq, Hash)]
pub enum Kind {
    And,
    Nor,
    Cg,
    Or,
    Nand,
    Dg,
    Xor,
    Xnor,
}

pub const KINDS: [Kind; 8] = [Kind::And, Kind::Nor, Kind::Cg, Kind::Or, Kind::Nand, Kind::Dg, Kind::Xor, Kind::Xnor];

impl Kind {
    pub fn name(self) -> &'static str {
        match self {
            Kind::And => "and",
            Kind::Nor => "nor",
            Kind::Cg => "cg",
            Kind::Or => "or",
            Kind::Nand => "nand",
            Kind::Dg => "dg",
            Kind::Xor => "xor",
            Kind::Xnor => "xnor",
        }
    }

    /// "Only cg and dg inputs carry signs."
    pub fn signed(self) -> bool {
        matches!(self, Kind::Cg | Kind::Dg)
    }

    /// "With o = v: `and` if all ai are positive, `nor` if all are negative, else `cg`. With o = -v: the inputs are the
    /// opposites of the ai; `or` if all inputs are positive, `nand` if all are negative, else `dg`."
    pub fn of_and_form(positive_output: bool, inputs: &[i32]) -> Kind {
        let positive = inputs.iter().all(|&input| input > 0);
        let negative = inputs.iter().all(|&input| input < 0);
        match (positive_output, positive, negative) {
            (true, true, _) => Kind::And,
            (true, _, true) => Kind::Nor,
            (true, _, _) => Kind::Cg,
            (false, true, _) => Kind::Or,
            (false, _, true) => Kind::Nand,
            (false, _, _) => Kind::Dg,
        }
    }

    /// The gate's value over its inputs as the listing shows them.
    pub fn value(self, inputs: &[i32], holds: impl Fn(i32) -> bool) -> bool {
        let mut values = inputs.iter().map(|&input| holds(input));
        match self {
            Kind::And | Kind::Cg => values.all(|value| value),
            Kind::Or | Kind::Dg => values.any(|value| value),
            Kind::Nor => values.all(|value| !value),
            Kind::Nand => values.any(|value| !value),
            Kind::Xor => values.filter(|value| *value).count() % 2 == 1,
            Kind::Xnor => values.filter(|value| *value).count() % 2 == 0,
        }
    }
}
