//! The lines of the text form, which docs/TEXT-FORM.md describes.

use malluvom::{Edition, Event, Kind, MachineSet, Operation};

/// One line of a text.
pub enum Line {
    Unchecked,
    Edition(Edition),
    Machines { count: u8, persistent: u8 },
    Location { number: u8, owner: u8, initial: u32, kind: Option<Kind> },
    Event(Event),
    Silent { location: u8, machine: u8 },
    Bytes(Vec<u8>),
    End,
}

/// One line of a text in this edition, or nothing if it is empty or only a comment.
pub fn parse(line: &str, edition: Edition) -> Result<Option<Line>, String> {
    let line = line.split('#').next().unwrap_or("");
    // Words that only help reading.
    let noise = ["by", "to", "of", "from", "~"];
    let words: Vec<&str> = line
        .split(|c: char| c.is_whitespace() || c == ',')
        .filter(|word| !word.is_empty() && !noise.contains(word))
        .collect();
    let Some((&first, rest)) = words.split_first() else {
        return Ok(None);
    };
    let known = match first.to_ascii_lowercase().as_str() {
        "unchecked" => none(rest, Line::Unchecked)?,
        "edition" => match rest {
            [word] => Line::Edition(named_edition(word)?),
            _ => return Err("the edition is 'edition 1' or 'edition 2'".into()),
        },
        "machines" => machines(rest)?,
        "propagate" => match rest {
            [machine, location] => Line::Silent { machine: number(machine)?, location: location_number(location)? },
            _ => return Err("a propagation is 'propagate by 1 of L0'".into()),
        },
        "write-back" => match rest {
            [location] => Line::Silent { machine: 0, location: location_number(location)? },
            _ => return Err("a write-back is 'write-back of L0'".into()),
        },
        "bytes" => Line::Bytes(rest.iter().map(|word| hex(word)).collect::<Result<_, _>>()?),
        "end" => none(rest, Line::End)?,
        name => match Operation::ALL.iter().find(|operation| operation.to_string().eq_ignore_ascii_case(name)) {
            Some(&operation) => Line::Event(event(operation, rest, edition)?),
            None => match location_number(first) {
                Ok(number) => location(number, rest, edition)?,
                Err(_) => return Err(format!("'{first}' begins no line of the text form")),
            },
        },
    };
    Ok(Some(known))
}

fn none(rest: &[&str], line: Line) -> Result<Line, String> {
    match rest.first() {
        None => Ok(line),
        Some(word) => Err(format!("'{word}' is too much")),
    }
}

fn named_edition(word: &str) -> Result<Edition, String> {
    Edition::from_number(number(word)?).ok_or_else(|| format!("there is no edition {word}, only 1 and 2"))
}

fn machines(rest: &[&str]) -> Result<Line, String> {
    let [count, kind, which @ ..] = rest else {
        return Err("the machines are 'machines 3 persistent all', 'none' or their numbers".into());
    };
    if *kind != "persistent" {
        return Err(format!("'persistent' is expected, not '{kind}'"));
    }
    let count: u8 = number(count)?;
    let persistent = match which {
        ["all"] if count <= 8 => ((1u16 << count) - 1) as u8,
        ["none"] => 0,
        [] => return Err("which machines are persistent? 'all', 'none' or their numbers".into()),
        which => which.iter().try_fold(0, |set: u8, word| match number::<u8>(word)? {
            machine @ 1..=8 => Ok(set | 1 << (machine - 1)),
            machine => Err(format!("machine {machine} cannot be called persistent")),
        })?,
    };
    Ok(Line::Machines { count, persistent })
}

/// A location. If its kind is left out, it is that of the owner, which another line says.
fn location(location: u8, rest: &[&str], edition: Edition) -> Result<Line, String> {
    let (rest, kind) = match rest {
        [rest @ .., "volatile"] => (rest, Some(Kind::Volatile)),
        [rest @ .., "persistent"] => (rest, Some(Kind::Persistent)),
        _ => (rest, None),
    };
    let (owner, initial) = match rest {
        [owner] => (number(owner)?, 0),
        [owner, "initially", initial] => (number(owner)?, value(initial, edition)?),
        _ => return Err("a location is 'L0 of 2', 'L0 of 2 initially 7', or either with its kind at the end".into()),
    };
    Ok(Line::Location { number: location, owner, initial, kind })
}

fn event(operation: Operation, rest: &[&str], edition: Edition) -> Result<Event, String> {
    let mut event = Event { operation, machine: 0, location: 0, value: 0, written: 0, machines: MachineSet::EMPTY };
    match (operation, rest) {
        (Operation::Crash, [machine]) => event.machine = number(machine)?,
        (Operation::Crash, [_, _, ..]) => {
            (event.operation, event.machines) = (Operation::SetCrash, machine_set(rest)?);
        }
        (Operation::LFlush | Operation::RFlush, [machine, location]) => {
            (event.machine, event.location) = (number(machine)?, location_number(location)?);
        }
        (Operation::LStore | Operation::RStore | Operation::MStore | Operation::Load, [machine, location, word]) => {
            (event.machine, event.location) = (number(machine)?, location_number(location)?);
            event.value = value(word, edition)?;
        }
        (Operation::LRmw | Operation::RRmw | Operation::MRmw, [machine, location, read, written]) => {
            (event.machine, event.location) = (number(machine)?, location_number(location)?);
            (event.value, event.written) = (value(read, edition)?, value(written, edition)?);
        }
        _ => {
            let example = Event { machine: 1, value: 1, written: 2, ..event };
            return Err(format!("this line should look like '{example}'"));
        }
    }
    Ok(event)
}

/// The machines of a set crash, each named once.
fn machine_set(words: &[&str]) -> Result<MachineSet, String> {
    words.iter().try_fold(MachineSet::EMPTY, |set, word| {
        let machine = number(word)?;
        match MachineSet::one(machine) {
            Some(_) if set.contains(machine) => Err(format!("machine {machine} is named twice")),
            Some(one) => Ok(set.union(one)),
            None => Err(format!("machine {machine} cannot crash with others")),
        }
    })
}

/// A number, base ten or with 0x in front.
fn number<T: TryFrom<u32>>(word: &str) -> Result<T, String> {
    let parsed = match word.strip_prefix("0x") {
        Some(digits) if digits.bytes().all(|b| b.is_ascii_hexdigit()) => u32::from_str_radix(digits, 16).ok(),
        None if word.bytes().all(|b| b.is_ascii_digit()) => word.parse().ok(),
        _ => None,
    };
    let fits = parsed.and_then(|parsed| T::try_from(parsed).ok());
    fits.ok_or_else(|| format!("'{word}' is no number that fits here"))
}

/// A value that has bytes in the edition.
fn value(word: &str, edition: Edition) -> Result<u32, String> {
    let most = edition.value_most();
    match number(word)? {
        value if value <= most => Ok(value),
        _ => Err(format!("'{word}' is no number that fits here: values of edition {edition} go to {most}")),
    }
}

fn location_number(word: &str) -> Result<u8, String> {
    let digits = word.strip_prefix(['L', 'l']).ok_or_else(|| format!("'{word}' is no location such as L0"))?;
    number(digits)
}

fn hex(word: &str) -> Result<u8, String> {
    match word.len() {
        2 if word.bytes().all(|b| b.is_ascii_hexdigit()) => {
            u8::from_str_radix(word, 16).map_err(|error| error.to_string())
        }
        _ => Err(format!("'{word}' is no byte of two hexadecimal digits")),
    }
}
