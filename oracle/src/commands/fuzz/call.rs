//! A call of the face: the function, its numbers, and every buffer as it is at entry.

use super::lend::{Lender, Loan, Manner};

/// The functions of the face that take numbers.
#[derive(Clone, Copy, Debug, PartialEq, Eq, PartialOrd, Ord)]
pub enum Function {
    Range,
    PlainLengths,
    CelledLengths,
    PlainTrain,
    PlainSearch,
    CelledTrain,
    CelledSearch,
    CelledCheck,
}

impl Function {
    /// Its name in the header.
    pub fn name(self) -> &'static str {
        match self {
            Function::Range => "bergrosk_range",
            Function::PlainLengths => "bergrosk_plain_lengths",
            Function::CelledLengths => "bergrosk_celled_lengths",
            Function::PlainTrain => "bergrosk_plain_train",
            Function::PlainSearch => "bergrosk_plain_search",
            Function::CelledTrain => "bergrosk_celled_train",
            Function::CelledSearch => "bergrosk_celled_search",
            Function::CelledCheck => "bergrosk_celled_check",
        }
    }

    /// Whether it is of the celled index, and so takes cells and probes.
    pub fn is_celled(self) -> bool {
        use Function::*;
        matches!(self, CelledLengths | CelledTrain | CelledSearch | CelledCheck)
    }
}

/// The numbers of a call; each function takes those that it has.
#[derive(Clone, Copy, Debug)]
pub struct Shape {
    pub d: usize,
    pub n_sub: usize,
    pub sub_bits: usize,
    pub cells: usize,
    pub probes: usize,
    pub epochs: usize,
    pub n: usize,
}

/// Every buffer that some function is lent: as drafted, as lent, and the two side by side.
macro_rules! buffers {
    ($($name:ident: $kind:ty,)*) => {
        /// The content of every buffer; one that a function is not lent is empty.
        #[derive(Clone, Debug, Default)]
        pub struct Buffers {
            $(pub $name: Vec<$kind>,)*
        }

        /// Every buffer as lent.
        pub struct Loans {
            $(pub $name: Loan<$kind>,)*
        }

        impl Buffers {
            /// Lends a copy of each.
            pub fn lend(&self, manner: Manner, lender: &mut Lender) -> Loans {
                Loans { $($name: lender.lend(manner, &self.$name),)* }
            }

            /// A line for each that is lent.
            fn print(&self) {
                $(if !self.$name.is_empty() {
                    println!("{}: {}", stringify!($name), listed(&self.$name));
                })*
            }

            /// The name and length of each.
            fn lengths(&self) -> Vec<(&'static str, usize)> {
                vec![$((stringify!($name), self.$name.len()),)*]
            }
        }

        /// Each buffer as it was at entry, as it is now, and as it must be.
        pub fn sides<'a>(entry: &'a Buffers, lent: &'a Loans, right: &'a Buffers) -> Vec<Side<'a>> {
            vec![$(Side::new(stringify!($name), &entry.$name, &lent.$name, &right.$name),)*]
        }
    };
}

buffers! {
    rows: f32,
    draws: f64,
    query: f32,
    mask: u8,
    coarse: f32,
    starts: u32,
    members: u32,
    subs: f32,
    codes: u8,
    work: u32,
    found: u32,
    sums: f32,
    table: f32,
}

/// A list in words, cut short if it is long.
fn listed<T: std::fmt::Debug>(list: &[T]) -> String {
    match list.len() {
        0..=SHOWN => format!("{list:?}"),
        all => format!("{:?} and more, {all} in all", &list[..SHOWN]),
    }
}

/// The most elements of a buffer that are printed.
const SHOWN: usize = 200;

/// A lent buffer beside what it was at entry and what document 01 leaves in it.
pub struct Side<'a> {
    name: &'static str,
    size: usize,
    entry: &'a [u8],
    now: &'a [u8],
    right: &'a [u8],
    rim_is_whole: bool,
}

impl<'a> Side<'a> {
    /// A buffer's sides, as bytes.
    fn new<T: Copy>(
        name: &'static str,
        entry: &'a [T],
        lent: &'a Loan<T>,
        right: &'a [T],
    ) -> Side<'a> {
        let (entry, right) = (super::lend::bytes_of(entry), super::lend::bytes_of(right));
        let (now, rim_is_whole) = (lent.bytes(), lent.rim_is_whole());
        Side { name, size: std::mem::size_of::<T>(), entry, now, right, rim_is_whole }
    }

    /// The first byte at which a refusal that changes nothing changed it.
    pub fn changed(&self, number: u32) -> Option<String> {
        if self.now == self.entry {
            return None;
        }
        let at = (0..self.entry.len()).find(|&at| self.now[at] != self.entry[at])?;
        Some(format!("refusal {number} changed byte {at} of {}", self.name))
    }

    /// The first element at which it is not what document 01 leaves.
    pub fn differs(&self) -> Option<String> {
        if self.now == self.right {
            return None;
        }
        let mut pairs = self.right.chunks(self.size).zip(self.now.chunks(self.size)).enumerate();
        let (at, (right, now)) = pairs.find(|(_, (right, now))| right != now)?;
        Some(format!(
            "{} at {at}: document 01 leaves the bytes {right:x?}, the library {now:x?}",
            self.name
        ))
    }

    /// Whether something beside the buffer was written to.
    pub fn overrun(&self) -> Option<String> {
        (!self.rim_is_whole).then(|| format!("written to beside {}", self.name))
    }
}

/// A call.
#[derive(Clone, Debug)]
pub struct Call {
    pub function: Function,
    pub shape: Shape,
    /// The sub-space whose range is asked for.
    pub i: usize,
    pub buffers: Buffers,
    /// What was done to lists or codes, if something was.
    pub damage: Option<&'static str>,
}

impl Call {
    /// A call without buffers.
    pub fn of_numbers(function: Function, shape: Shape, i: usize) -> Call {
        Call { function, shape, i, buffers: Buffers::default(), damage: None }
    }

    /// Prints the call with its buffers.
    pub fn print(&self) {
        println!("{}", self.words());
        println!("damage: {}", self.damage.unwrap_or("none"));
        self.buffers.print();
    }

    /// Numbers and lengths in words.
    pub fn words(&self) -> String {
        let Shape { d, n_sub, sub_bits, cells, probes, epochs, n } = self.shape;
        let mut words = format!("{} d {d}, n_sub {n_sub}", self.function.name());
        if self.function == Function::Range {
            return format!("{words}, i {}", self.i);
        }
        words += &format!(", sub_bits {sub_bits}");
        if self.function.is_celled() {
            words += &format!(", cells {cells}, probes {probes}");
        }
        if matches!(self.function, Function::PlainTrain | Function::CelledTrain) {
            words += &format!(", epochs {epochs}");
        }
        words += &format!(", n {n}");
        for (name, length) in self.buffers.lengths() {
            if length != 0 {
                words += &format!(", {length} {name}");
            }
        }
        words
    }
}
