//! The operands.

use super::{Count, Fills, Operand};

/// A reading, or its number.
pub const READING: Operand = Operand {
    name: "READING",
    count: Count::One,
    fills: Fills::Reading,
    text: "A reading: strict, kleene or relational, in any case, or its number 1, 2 or 3. Any other number is refused with 7.",
};

/// A table.
pub const TABLE: Operand = Operand {
    name: "TABLE",
    count: Count::One,
    fills: Fills::File,
    text: "A file of 12-byte records, or - for standard input.",
};

/// One table or more.
pub const TABLES: Operand = Operand {
    count: Count::Some,
    ..TABLE
};

/// Where a table is written.
pub const OUT: Operand = Operand {
    name: "OUT",
    count: Count::One,
    fills: Fills::File,
    text: "A file, which is replaced as a whole when all is done, or - for standard output. A link is followed. \
           A FIFO, a character device and an open file such as /dev/stdout are written to, never replaced.",
};

/// A value of a variable.
pub const VALUE: Operand = Operand {
    name: "VALUE",
    count: Count::Any,
    fills: Fills::Number,
    text: "One signed number for each variable, in the table's order.",
};

/// A table as text.
pub const TEXT: Operand = Operand {
    name: "TEXT",
    count: Count::One,
    fills: Fills::File,
    text: "A file of lines as show and list print them, or - for standard input.",
};

/// The word of a sub-command.
pub const COMMAND: Operand = Operand {
    name: "COMMAND",
    count: Count::AtMostOne,
    fills: Fills::Command,
    text: "The command to tell about, or none for all of them.",
};

/// Every operand, each once.
pub const OPERANDS: [Operand; 6] = [READING, TABLE, OUT, VALUE, TEXT, COMMAND];
