//! How a readout writes the unbound variables of a line.

use yestrwyn_types::limits::VARIABLES;

/// What a readout keeps of a line to write its variables. A literal that turns out to be hidden shows none: the line goes
/// back to what it had shown before.
pub trait Naming: Default {
    /// Writes the variable of a number at an index.
    fn write(&mut self, text: &mut Vec<u8>, number: u16, index: u16);

    /// How many variables the line has named so far.
    fn named(&self) -> usize;

    /// Goes back to the first so many of them; to none for a new line.
    fn back_to(&mut self, named: usize);
}

/// The first readout's way: `v`, the number, a dot and the index. It keeps nothing.
#[derive(Default)]
pub struct ByIndex;

impl Naming for ByIndex {
    fn write(&mut self, text: &mut Vec<u8>, number: u16, index: u16) {
        text.push(b'v');
        push_number(text, number);
        text.push(b'.');
        push_number(text, index);
    }

    fn named(&self) -> usize {
        0
    }

    fn back_to(&mut self, _named: usize) {}
}

/// The second readout's way: `v` and a number from 0 by first appearance in the line.
#[derive(Default)]
pub struct ByAppearance {
    /// For each variable number and index the number given in this line plus 1, or 0 where there is none.
    given: Vec<u16>,
    /// The places in `given` that are not 0, in the order of their numbers.
    order: Vec<usize>,
}

impl Naming for ByAppearance {
    fn write(&mut self, text: &mut Vec<u8>, number: u16, index: u16) {
        let place = usize::from(index) * VARIABLES + usize::from(number);
        if place >= self.given.len() {
            self.given.resize(place + 1, 0);
        }
        if self.given[place] == 0 {
            self.order.push(place);
            // A line has at most 128 literals with fewer than 64 variables each.
            self.given[place] = self.order.len() as u16;
        }
        text.push(b'v');
        push_number(text, self.given[place] - 1);
    }

    fn named(&self) -> usize {
        self.order.len()
    }

    fn back_to(&mut self, named: usize) {
        for place in self.order.drain(named..) {
            self.given[place] = 0;
        }
    }
}

/// A number in decimal digits, without leading zeros.
pub fn push_number(text: &mut Vec<u8>, number: u16) {
    let mut digits = [0u8; 5];
    let mut rest = number;
    let mut start = digits.len();
    for (place, digit) in digits.iter_mut().enumerate().rev() {
        *digit = b'0' + (rest % 10) as u8;
        rest /= 10;
        start = place;
        if rest == 0 {
            break;
        }
    }
    text.extend_from_slice(&digits[start..]);
}
