//! Files of both forms, read slowly and straight from their bytes.

/// A number of two bytes.
pub fn pair(bytes: &[u8], at: usize) -> u16 {
    u16::from(bytes[at]) + 256 * u16::from(bytes[at + 1])
}

/// What a file says that stands: its records but for those of kind 8, and the first and last day of each clause. A derived clause
/// has none.
#[derive(Clone, PartialEq, Eq, Debug)]
pub struct Contents {
    pub records: Vec<Vec<u8>>,
    pub days: Vec<Option<(u16, u16)>>,
}

/// What a file of the old form says.
pub fn old_contents(file: &[u8]) -> Contents {
    let mut contents = Contents { records: Vec::new(), days: Vec::new() };
    for record in file.chunks(16) {
        match record[0] {
            8 => {
                let [clause, first, last] = [2, 4, 6].map(|at| pair(record, at));
                contents.days[usize::from(clause)] = Some((first, last));
                continue;
            }
            4 => contents.days.push(Some((0, 65_535))),
            5..=7 => contents.days.push(None),
            _ => {}
        }
        contents.records.push(record.to_vec());
    }
    contents
}

/// What a file of the new form says.
pub fn new_contents(file: &[u8]) -> Contents {
    let mut contents = Contents { records: Vec::new(), days: Vec::new() };
    for record in file.chunks(20) {
        match record[0] {
            4 => contents.days.push(Some((pair(record, 16), pair(record, 18)))),
            5..=7 => contents.days.push(None),
            _ => {}
        }
        contents.records.push(record[..16].to_vec());
    }
    contents
}

/// A file of the new form that says this.
pub fn as_new(contents: &Contents) -> Vec<u8> {
    let mut days = contents.days.iter();
    let mut bytes = Vec::new();
    for record in &contents.records {
        bytes.extend_from_slice(record);
        let (first, last) = match record[0] {
            4..=7 => days.next().and_then(|days| *days).unwrap_or((0, 0)),
            _ => (0, 0),
        };
        bytes.extend([first % 256, first / 256, last % 256, last / 256].map(|byte| byte as u8));
    }
    bytes
}

/// A file of the old form that says this, with each clause's days straight after it, unless it is always in force.
pub fn as_old(contents: &Contents) -> Vec<u8> {
    let mut clause = 0u16;
    let mut bytes = Vec::new();
    for record in &contents.records {
        bytes.extend_from_slice(record);
        if !(4..=7).contains(&record[0]) {
            continue;
        }
        if let Some((first, last)) = contents.days[usize::from(clause)] {
            if (first, last) != (0, 65_535) {
                bytes.extend([8, 0]);
                bytes.extend(
                    [clause, first, last].iter().flat_map(|number| [*number as u8, (number / 256) as u8]),
                );
                bytes.extend([0; 8]);
            }
        }
        clause += 1;
    }
    bytes
}
