//! The pictures of `malluvom draw`: all that is written in them can be read, and they show what the log says.

mod common;
mod svg;

use std::collections::BTreeMap;
use std::fs;
use std::sync::OnceLock;

use common::{examples, folder, status, tool, Pair};
use corpus::{change_one_load, encode, plausible, random_log, widened, Random, Shape};
use malluvom::{Event, Judge, Log, Verdict};
use svg::{Element, Extent, Svg};

/// A log's picture.
struct Picture {
    /// Which log.
    name: String,
    log: Log,
    /// The number of its first impossible event, if there is one.
    impossible: Option<usize>,
    /// What the tool exits with.
    status: i32,
    /// The location that is drawn.
    location: u8,
    svg: Svg,
}

impl Picture {
    /// Draws a log, at a location if that is given. None of a log that is refused or without a location.
    fn of(name: String, path: &str, location: Option<usize>) -> Option<Picture> {
        let bytes = fs::read(path).unwrap();
        let log = Log::parse(&bytes).ok().filter(|log| !log.homes.is_empty())?;
        let impossible = match Judge::new().judge(&bytes).unwrap() {
            Verdict::Allowed(_) => None,
            Verdict::Impossible { event } => Some(usize::from(event)),
        };
        let word = location.map(|location| location.to_string());
        let words = word.iter().flat_map(|word| ["--location", word]);
        let output = tool(&["draw", path].into_iter().chain(words).collect::<Vec<_>>());
        let status = status(&output);
        let svg = Svg::parse(&String::from_utf8(output.stdout).unwrap());
        let title = svg.of_class("title").next().unwrap();
        let drawn = title.text.strip_prefix('L').unwrap().split(',').next().unwrap().parse().unwrap();
        assert!(location.is_none_or(|location| location == usize::from(drawn)), "{name}");
        Some(Picture { name, log, impossible, status, location: drawn, svg })
    }

    /// The events that it shows, with their numbers: those that concern the location, to the first impossible one.
    fn events(&self) -> impl Iterator<Item = (usize, &Event)> {
        let shown = self.log.events.iter().take(self.impossible.unwrap_or(usize::MAX));
        (1..).zip(shown).filter(|(_, event)| event.concerns(self.location))
    }

    /// The impossible event, if it is shown.
    fn shows_impossible(&self) -> Option<(usize, &Event)> {
        self.events().find(|(number, _)| Some(*number) == self.impossible)
    }
}

/// The examples, and random logs of both editions with values of any width, at any location.
fn pictures() -> &'static [Picture] {
    static PICTURES: OnceLock<Vec<Picture>> = OnceLock::new();
    PICTURES.get_or_init(|| {
        let mut pictures = Vec::new();
        for path in examples("log") {
            let path = path.to_str().unwrap();
            pictures.extend(Picture::of(path.to_string(), path, None));
        }
        let path = folder("pictures").join("a.log");
        let mut random = Random::new(12);
        for round in 0..200 {
            let shape = Shape { values: *random.pick(&[3, 65536, 65536]), ..Shape::random(&mut random) };
            let log = if round % 4 == 0 { random_log(&mut random, &shape) } else { plausible(&mut random, &shape) };
            let log = if round % 4 == 1 { change_one_load(&mut random, &log, shape.values) } else { log };
            let log = if random.percent(50) { widened(&mut random, &log) } else { log };
            let location = (!log.homes.is_empty() && random.percent(30)).then(|| random.below(log.homes.len()));
            fs::write(&path, encode(&log)).unwrap();
            pictures.extend(Picture::of(format!("random log {round}"), path.to_str().unwrap(), location));
        }
        pictures
    })
}

/// So much is drawn that the other tests are about something.
#[test]
fn the_pictures_are_of_many_sorts() {
    let count = |sort: fn(&Picture) -> bool| pictures().iter().filter(|picture| sort(picture)).count();
    for (sort, count) in [
        ("one machine", count(|picture| picture.log.machines == 1)),
        ("six machines", count(|picture| picture.log.machines == 6)),
        ("128 events", count(|picture| picture.events().count() == 128)),
        ("no event", count(|picture| picture.events().next().is_none())),
        ("a set crash", count(|picture| picture.events().any(|(_, event)| event.crashed().len() > 1))),
        ("an impossible event", count(|picture| picture.shows_impossible().is_some())),
        ("one elsewhere", count(|picture| picture.impossible.is_some() && picture.shows_impossible().is_none())),
        ("ten digits", count(|picture| picture.svg.of_class("value").any(|value| value.text.len() == 10))),
        ("an initial value", count(|picture| picture.log.initial(picture.location) > 65535)),
    ] {
        assert!(count >= 5, "{sort}: {count}");
    }
}

/// No text overlaps another one or leaves the picture, and what stands side by side has space between.
#[test]
fn texts_stand_apart_and_inside() {
    for Picture { name, svg, .. } in pictures() {
        let texts: Vec<(&Element, Extent)> = svg.texts().map(|text| (text, svg.extent(text))).collect();
        for (at, (text, extent)) in texts.iter().enumerate() {
            assert!(extent.is_inside(&svg.view()), "{name}: '{}' leaves the picture", text.text);
            let spaced = Extent { left: extent.left - 4.0, right: extent.right + 4.0, ..*extent };
            for (other, second) in &texts[..at] {
                assert!(!spaced.meets(second), "{name}: '{}' meets '{}'", text.text, other.text);
            }
        }
    }
}

/// Each bar has its value, which no mark covers. A cross stands beyond the bar that a crash ends.
#[test]
fn values_can_be_read() {
    for Picture { name, svg, .. } in pictures() {
        let bars: Vec<Extent> = svg.bars().map(|bar| svg.extent(bar)).collect();
        let values: Vec<Extent> = svg.of_class("value").map(|value| svg.extent(value)).collect();
        assert!(values.iter().all(|value| bars.iter().any(|bar| value.is_inside(bar))), "{name}");
        assert!(bars.iter().all(|bar| values.iter().any(|value| value.is_inside(bar))), "{name}");
        for mark in svg.marks() {
            let extent = svg.extent(mark);
            assert!(extent.is_inside(&svg.view()), "{name}: {:?}", mark.attributes);
            assert!(!values.iter().any(|value| value.meets(&extent)), "{name}: {:?} covers a value", mark.attributes);
            let covers = mark.has_class("crash") && bars.iter().any(|bar| bar.meets(&extent));
            assert!(!covers, "{name}: {:?} covers a bar", mark.attributes);
        }
    }
}

/// Every text has a contrast of 4.5 or more with what it stands on.
#[test]
fn texts_have_contrast() {
    for Picture { name, svg, .. } in pictures() {
        let ground = svg.elements.iter().find(|element| element.name == "rect").unwrap();
        assert_eq!(svg.luminance(ground), 1.0, "{name}");
        let rects: Vec<(&Element, Extent)> =
            svg.bars().chain(svg.of_class("names")).map(|rect| (rect, svg.extent(rect))).collect();
        for text in svg.texts() {
            let extent = svg.extent(text);
            let under = rects.iter().find(|(_, rect)| extent.is_inside(rect)).map_or(ground, |(rect, _)| rect);
            let (one, other) = (svg.luminance(text) + 0.05, svg.luminance(under) + 0.05);
            assert!((one / other).max(other / one) >= 4.5, "{name}: '{}'", text.text);
        }
    }
}

#[test]
fn an_impossible_event_has_its_number_and_a_sign_of_its_own() {
    for picture in pictures() {
        let Picture { name, svg, .. } = picture;
        let sign: Vec<&Element> = svg.of_class("impossible").collect();
        let wrong: Vec<&str> = svg.of_class("wrong").map(|text| text.text.as_str()).collect();
        // Not the colour alone tells a sign from a cross: one has a ring, the other has none.
        assert!(sign.iter().all(|part| !part.has_class("crash")), "{name}");
        assert!(svg.of_class("crash").all(|cross| cross.name == "path"), "{name}");
        let Some((number, event)) = picture.shows_impossible() else {
            assert_eq!((sign.len(), wrong.len()), (0, 0), "{name}");
            continue;
        };
        let label = format!("{number}: {} {}", event.operation, event.stored().unwrap_or(event.value));
        assert!(wrong.contains(&"impossible") && wrong.contains(&label.as_str()), "{name}: {wrong:?}");
        assert_eq!(sign.iter().filter(|part| part.name == "circle").count(), 1, "{name}");
        // It stands in its machine's lane.
        let lane = svg.texts().find(|text| text.text.starts_with(&format!("cache of {}", event.machine))).unwrap();
        let (lane, ring) = (svg.extent(lane), svg.extent(sign[0]));
        assert!(ring.top < lane.top && lane.bottom < ring.bottom, "{name}");
    }
}

/// In every stretch of 1,200 pixels each lane has its name, where nothing else is.
#[test]
fn lane_names_are_always_in_sight() {
    const SIGHT: f64 = 1200.0;
    let mut most = 0;
    for Picture { name, log, svg, .. } in pictures() {
        let mut lanes: BTreeMap<&str, Vec<Extent>> = BTreeMap::new();
        let is_name = |text: &&Element| text.text.starts_with("cache of ") || text.text.starts_with("memory of ");
        for text in svg.texts().filter(is_name) {
            lanes.entry(&text.text).or_default().push(svg.extent(text));
        }
        assert_eq!(lanes.len(), usize::from(log.machines) + 1, "{name}");
        let drawn: Vec<Extent> = svg.marks().chain(svg.bars()).map(|element| svg.extent(element)).collect();
        for (lane, names) in &mut lanes {
            names.sort_by(|one, next| one.left.total_cmp(&next.left));
            let (first, last) = (names[0], names[names.len() - 1]);
            assert!(first.right <= SIGHT && svg.view().right - last.left <= SIGHT, "{name}: {lane}");
            assert!(names.windows(2).all(|pair| pair[1].right - pair[0].left <= SIGHT), "{name}: {lane}");
            assert!(!names.iter().any(|text| drawn.iter().any(|drawn| drawn.meets(text))), "{name}: {lane}");
            most = most.max(names.len());
        }
    }
    assert!(most > 10, "{most}");
}

/// Where the lanes are named again, a bar that runs through has its value, there or shortly before.
#[test]
fn values_are_in_sight_with_the_names() {
    for Picture { name, svg, .. } in pictures() {
        let values: Vec<Extent> = svg.of_class("value").map(|value| svg.extent(value)).collect();
        for names in svg.of_class("names").map(|names| svg.extent(names)) {
            let through = |bar: &Extent| bar.left < names.left && names.right < bar.right;
            for bar in svg.bars().map(|bar| svg.extent(bar)).filter(through) {
                let is_near = |value: &Extent| names.left - 200.0 < value.left && value.right < names.right;
                assert!(values.iter().any(|value| value.is_inside(&bar) && is_near(value)), "{name}: {bar:?}");
            }
        }
    }
}

/// A title, and a description with a line for the start, for each event that concerns the location and for each silent
/// step. Each of these has its label.
#[test]
fn pictures_are_said_in_words() {
    for picture in pictures() {
        let Picture { name, svg, .. } = picture;
        let [root, title, description] = &svg.elements[..3] else { panic!("{name}") };
        assert_eq!([&root.name, &title.name, &description.name], ["svg", "title", "desc"], "{name}");
        assert_eq!(root.attribute("role"), Some("img"), "{name}");
        assert!(title.text.starts_with(&svg.of_class("title").next().unwrap().text), "{name}");
        let said: Vec<&str> = description.text.lines().filter(|line| line.starts_with("Event ")).collect();
        let events: Vec<(usize, &Event)> = picture.events().collect();
        let labels: Vec<&str> = svg.of_class("label").map(|label| label.text.as_str()).collect();
        assert_eq!(said.len(), events.len(), "{name}");
        for (line, (number, event)) in said.iter().zip(&events) {
            let label = format!("{number}: {}", event.operation);
            assert!(labels.iter().any(|found| found.starts_with(&label)), "{name}: {label}");
            assert!(line.starts_with(&format!("Event {number}, {event}: ")), "{name}: {line}");
            assert_eq!(line.ends_with(": impossible."), Some(*number) == picture.impossible, "{name}: {line}");
        }
        let steps = description.text.lines().filter(|line| line.starts_with("Silent step, ")).count();
        assert_eq!(svg.of_class("silent").count(), steps, "{name}");
        let nothing = usize::from(events.is_empty() && steps == 0);
        assert_eq!(description.text.lines().count(), 1 + events.len() + steps + nothing, "{name}");
        if let Some(number) = picture.impossible {
            assert!(title.text.contains(&format!(". Event {number}")), "{name}: {}", title.text);
        }
    }
}

#[test]
fn the_status_says_whether_the_log_is_allowed() {
    for Picture { name, impossible, status, .. } in pictures() {
        assert_eq!(*status, i32::from(impossible.is_some()), "{name}");
    }
    let pair = Pair::new("draw-status");
    let svg = pair.log.replace(".log", ".svg");
    pair.assemble("machines 2 persistent all\nL0 of 2\nL1 of 2\nLoad by 1 of L0, 1");
    for location in ["L0", "1"] {
        assert_eq!(status(&tool(&["draw", &pair.log, "--location", location, "-o", &svg])), 1);
        Svg::parse(&fs::read_to_string(&svg).unwrap());
    }
    let refused = |words: &[&str], why: &str| {
        let output = tool(words);
        assert_eq!((status(&output), output.stdout.len()), (2, 0), "{words:?}");
        assert!(String::from_utf8_lossy(&output.stderr).contains(why), "{words:?}");
    };
    refused(&["draw", &pair.log, "--location", "L2"], "the log has no location L2");
    refused(&["draw", &pair.log, "-o", "/nowhere/a.svg"], "/nowhere/a.svg: ");
    pair.assemble("machines 2 persistent all\nCrash of 1");
    refused(&["draw", &pair.log], "the log has no location to draw");
}
