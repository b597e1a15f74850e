//! Text to log bytes. docs/TEXT-FORM.md describes the text.

use std::fmt::Display;
use std::path::Path;

use malluvom::{Edition, Home, Kind, Recorder, Schedule, Step};

use crate::failure::Failure;
use crate::files;
use crate::names::shown;
use crate::options::Options;
use crate::output;
use crate::text::{parse, Line};

pub fn command(options: &Options) -> Result<u8, Failure> {
    let path = options.one_file("the text")?;
    let text = files::read_text(path)?;
    let assembled = assemble(&text, path)?;
    let schedule = options.value("--schedule");
    let outputs: Vec<&Path> = [options.value("-o"), schedule].into_iter().flatten().map(Path::new).collect();
    output::check(&outputs, &options.files)?;
    if let Some(schedule) = schedule {
        output::write_file(schedule, &assembled.schedule.to_file(), options.has("--sync"))?;
    }
    output::write(options, &assembled.log)?;
    Ok(0)
}

/// What a text says.
pub struct Assembled {
    pub log: Vec<u8>,
    pub schedule: Schedule,
}

/// Where the fields go: through the proved recorder, or as they are.
enum Sink {
    Checked(Box<Recorder>),
    Unchecked(Vec<u8>),
}

impl Sink {
    fn field(&mut self, tag: u8, payload: &[u8]) -> Result<(), String> {
        match self {
            Sink::Checked(recorder) => recorder.field(tag, payload).map_err(in_words),
            Sink::Unchecked(bytes) => {
                bytes.extend([tag, payload.len() as u8, 0]);
                bytes.extend(payload);
                Ok(())
            }
        }
    }
}

fn in_words(error: impl Display) -> String {
    error.to_string()
}

/// Assembles a text; a failure names the file and the line.
pub fn assemble(text: &str, path: &Path) -> Result<Assembled, Failure> {
    let mut assembly = Assembly {
        sink: Sink::Checked(Box::new(Recorder::empty())),
        edition: None,
        fields: 0,
        persistent: 0,
        locations: 0,
        events: 0,
        schedule: Schedule::default(),
    };
    let mut lines = 1;
    for (number, line) in text.lines().enumerate() {
        lines = number + 1;
        let placed = |message: String| Failure::new(format!("{}:{}: {message}", shown(path), number + 1));
        if let Some(line) = parse(line, assembly.edition()).map_err(placed)? {
            assembly.take(line).map_err(placed)?;
        }
    }
    assembly.finish().map_err(|message| Failure::new(format!("{}:{lines}: {message}", shown(path))))
}

struct Assembly {
    sink: Sink,
    /// What the last `edition` line says.
    edition: Option<Edition>,
    fields: usize,
    /// The machines that are persistent by the last `machines` line.
    persistent: u8,
    locations: usize,
    events: usize,
    schedule: Schedule,
}

impl Assembly {
    fn edition(&self) -> Edition {
        self.edition.unwrap_or(Edition::First)
    }

    fn take(&mut self, line: Line) -> Result<(), String> {
        match line {
            Line::Unchecked if self.fields == 0 => {
                self.sink = Sink::Unchecked(Vec::new());
                Ok(())
            }
            Line::Unchecked => Err("'unchecked' must come before all fields".into()),
            Line::Edition(edition) => match self.sink {
                Sink::Checked(_) if self.fields != 0 => Err("'edition' must come before the 'machines' line".into()),
                Sink::Checked(_) if self.edition.is_some() => Err("the edition is named twice".into()),
                _ => {
                    self.edition = Some(edition);
                    Ok(())
                }
            },
            Line::Machines { count, persistent } => {
                self.persistent = persistent;
                self.field(self.edition().tag(), &[count, persistent])
            }
            Line::Location { number, owner, initial, kind } => {
                if usize::from(number) != self.locations {
                    return Err(format!("the next location is L{}", self.locations));
                }
                self.locations += 1;
                let kind = kind.unwrap_or_else(|| Kind::of_machine(owner, self.persistent));
                let payload = Home { owner, initial, kind }.payload(self.edition(), self.persistent);
                self.field(0x02, &payload.map_err(in_words)?)
            }
            Line::Event(event) => {
                self.events += 1;
                self.field(event.operation.tag(), &event.payload(self.edition()).map_err(in_words)?)
            }
            Line::Silent { location, machine } => {
                let before = u8::try_from(self.events).map_err(|_| "over 255 events before a silent step")?;
                self.schedule.steps.push(Step { before, location, machine });
                Ok(())
            }
            Line::Bytes(given) => match &mut self.sink {
                Sink::Unchecked(bytes) => {
                    bytes.extend(given);
                    Ok(())
                }
                Sink::Checked(_) => Err("'bytes' stands only in a text that begins with 'unchecked'".into()),
            },
            Line::End => self.field(0x04, &[]),
        }
    }

    fn field(&mut self, tag: u8, payload: &[u8]) -> Result<(), String> {
        self.fields += 1;
        self.sink.field(tag, payload)
    }

    /// The end field is written unless the text has it, or is unchecked.
    fn finish(self) -> Result<Assembled, String> {
        let log = match self.sink {
            Sink::Unchecked(bytes) => bytes,
            Sink::Checked(_) if self.fields == 0 => return Err("no 'machines' line".into()),
            Sink::Checked(recorder) if malluvom::read(recorder.bytes()).is_ok() => recorder.bytes().to_vec(),
            Sink::Checked(recorder) => recorder.finish().map_err(in_words)?,
        };
        Ok(Assembled { log, schedule: self.schedule })
    }
}
