//! Variables, and the literals that they have.

/// A variable's number; that of the root is 0.
pub type Variable = u32;

/// A variable or its negation: twice the variable's number, and one more where it is negated.
pub type Literal = u32;

/// No number: where there is no next clause, no variable and so on.
pub const NONE: u32 = u32::MAX;

/// The literal that is true where the variable has the value.
pub fn literal(variable: Variable, value: bool) -> Literal {
    variable << 1 | !value as u32
}

/// The literal that the variable is true.
pub fn positive(variable: Variable) -> Literal {
    variable << 1
}

/// The literal that it is false.
pub fn negative(variable: Variable) -> Literal {
    variable << 1 | 1
}

pub fn variable_of(literal: Literal) -> Variable {
    literal >> 1
}

/// A count as the number of what comes next. There are never as many as numbers, since each takes a line.
pub fn number_of(count: usize) -> u32 {
    u32::try_from(count).unwrap_or_else(|_| std::process::exit(3))
}
