//! A line of a table cut into its fields, a byte at a time.
//! Follows the page on the bench, 'The table', 'Read'.

use super::fields::bare;

/// Where the reader stands in a field.
#[derive(Clone, Copy, PartialEq, Eq)]
enum Place {
    Front,
    Bare,
    Quoted,
    /// Right behind a quote within quotes, which closes unless another follows.
    Quote,
    Behind,
}

/// What becomes of the byte.
enum Deed {
    Passed,
    Taken,
    FieldEnds,
}

/// The next place and the deed; nothing if a quote is out of place.
fn step(place: Place, byte: u8) -> Option<(Place, Deed)> {
    use Place::*;
    match (place, byte) {
        (Quoted, b'"') => Some((Quote, Deed::Passed)),
        (Quoted, _) => Some((Quoted, Deed::Taken)),
        (Quote, b'"') => Some((Quoted, Deed::Taken)),
        (_, b',') => Some((Front, Deed::FieldEnds)),
        (Front, b'"') => Some((Quoted, Deed::Passed)),
        (Front, b' ' | b'\t') => Some((Front, Deed::Passed)),
        (Quote | Behind, b' ' | b'\t') => Some((Behind, Deed::Passed)),
        (Quote | Behind, _) | (Bare, b'"') => None,
        (Front | Bare, _) => Some((Bare, Deed::Taken)),
    }
}

/// The fields of a line; nothing if a quote is out of place.
pub fn fields(line: &[u8]) -> Option<Vec<Vec<u8>>> {
    let mut fields = vec![];
    let mut field = vec![];
    let mut place = Place::Front;
    for &byte in line.iter().chain(b",") {
        let (next, deed) = step(place, byte)?;
        match deed {
            Deed::Passed => {}
            Deed::Taken => field.push(byte),
            Deed::FieldEnds => fields.push(ended(place, std::mem::take(&mut field))),
        }
        place = next;
    }
    (place == Place::Front).then_some(fields)
}

/// Spaces within quotes count.
fn ended(place: Place, field: Vec<u8>) -> Vec<u8> {
    match place {
        Place::Bare => bare(&field).to_vec(),
        _ => field,
    }
}
