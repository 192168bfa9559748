//! What a call answers: a value, or a refusal with the paper's numbers.

/// The paper's No. of each refusal that a call can give. No. 11 belongs to `leaves` alone.
pub mod rule {
    /// A size is above 12.
    pub const SIZE: u64 = 1;
    /// An offset or origin is outside −65,536..65,536.
    pub const OFFSET: u64 = 2;
    /// The first list is not well formed.
    pub const FIRST_LIST: u64 = 3;
    /// The second list is not well formed.
    pub const SECOND_LIST: u64 = 4;
    /// The shortest list is longer than the space lent.
    pub const SPACE: u64 = 5;
    /// A ground number is not usable.
    pub const GROUND: u64 = 6;
    /// Cell sides differ.
    pub const CELL_SIDES: u64 = 7;
    /// The shift is not whole cells.
    pub const WHOLE_CELLS: u64 = 8;
    /// A cell, or a neighbour, is beyond the square.
    pub const BEYOND: u64 = 9;
    /// A raster's length is not 4^n.
    pub const RASTER: u64 = 10;
    /// A block address is no block of that square.
    pub const BLOCK: u64 = 12;
}

/// The answer of a call: what it gives, or the No. of its refusal and the number that the paper's table returns with it.
#[derive(Clone, Copy, Debug, PartialEq, Eq)]
pub enum Answer<T> {
    Gives(T),
    Refuses { rule: u64, number: u64 },
}

impl<T> Answer<T> {
    /// The same answer, with what it gives put into another form.
    pub fn map<Form>(self, form: impl FnOnce(T) -> Form) -> Answer<Form> {
        match self {
            Answer::Gives(value) => Answer::Gives(form(value)),
            Answer::Refuses { rule, number } => Answer::Refuses { rule, number },
        }
    }
}
