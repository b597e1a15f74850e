//! The lanes, bars and marks of a picture, each at its place.

use malluvom::{Event, Operation, Step};

use super::layout::{Layout, BAR, GAP, MARGIN, MARK};
use super::scene::{Column, Lane, Scene};
use super::svg::Svg;

/// Half the width of a cross, and of the head of an arrow.
const CROSS: usize = 7;
const HEAD: usize = 5;

/// The picture as SVG.
pub fn svg(scene: &Scene) -> String {
    let layout = &Layout::new(scene);
    let title: Vec<String> = [Some(scene.title()), scene.verdict()].into_iter().flatten().collect();
    let svg = Svg::new(layout.width(), layout.height(), &title.join(". "), &scene.description());
    let mut painter = Painter { scene, layout, svg };
    painter.title();
    painter.lanes();
    for (column, &x) in scene.columns.iter().zip(&layout.middles) {
        painter.guide(column, x);
    }
    for (number, lane) in scene.lanes.iter().enumerate() {
        painter.bars(lane, layout.lane(number));
    }
    for (column, &x) in scene.columns.iter().zip(&layout.middles) {
        painter.column(column, x);
    }
    painter.svg.finish()
}

struct Painter<'a> {
    scene: &'a Scene<'a>,
    layout: &'a Layout,
    svg: Svg,
}

impl Painter<'_> {
    fn title(&mut self) {
        self.svg.text("title", MARGIN, self.layout.title, &self.scene.title());
        self.svg.end_line();
        if let Some(verdict) = self.scene.verdict() {
            self.svg.text("verdict", MARGIN, self.layout.verdict, &verdict);
            self.svg.end_line();
        }
    }

    /// The lanes without what they hold, with their names at the left and wherever these are out of sight.
    fn lanes(&mut self) {
        let Layout { left, right, names_width, ref names, .. } = *self.layout;
        for names in names {
            let edges = (names.left, names.left + names_width);
            self.svg.rect("names", edges, (self.layout.top(), self.layout.bottom()));
            self.svg.end_line();
        }
        for (number, lane) in self.scene.lanes.iter().enumerate() {
            let y = self.layout.lane(number);
            self.svg.text("name", MARGIN, y + 5, &lane.name);
            self.svg.line("lane", (left, y), (right, y));
            for names in names {
                self.svg.text("again", names.left + GAP, y - BAR - 5, &lane.name);
            }
            self.svg.end_line();
        }
    }

    /// A thin line from a label down to its marks.
    fn guide(&mut self, column: &Column, x: usize) {
        let scene = self.scene;
        let lane = match column {
            Column::Event(_, event) | Column::Impossible(_, event) => Some(scene.cache(event.machine)),
            Column::Crash(_, _, lanes) => lanes.last().copied(),
            Column::Silent(Step { machine: 0, .. }) => Some(scene.owner()),
            Column::Silent(step) => Some(scene.cache(step.machine).min(scene.owner())),
            Column::Nothing => None,
        };
        if let Some(lane) = lane {
            self.svg.line("guide", (x, self.layout.top()), (x, self.layout.lane(lane)));
            self.svg.end_line();
        }
    }

    /// The bars of a lane, each with its value at the start and wherever the lanes are named again.
    fn bars(&mut self, lane: &Lane, y: usize) {
        for bar in &lane.bars {
            let (start, end) = (self.layout.start(bar.from), self.layout.end(bar.to - 1));
            let edges = (start + self.room(bar.from.checked_sub(1)), end - self.room(Some(bar.to - 1)));
            self.svg.rect(lane.class, edges, (y - BAR, y + BAR));
            let again = self.layout.names.iter().filter(|names| bar.from < names.state && names.state < bar.to);
            for x in [start + MARK].into_iter().chain(again.map(|names| names.left + GAP)) {
                self.svg.text("value", x, y + 4, &bar.value.to_string());
            }
            self.svg.end_line();
        }
    }

    /// How far a bar stays from the middle of a column in which it ends or starts: a cross stands there by itself.
    fn room(&self, column: Option<usize>) -> usize {
        match column.and_then(|column| self.scene.columns.get(column)) {
            Some(Column::Crash(..)) => CROSS + 4,
            _ => 1,
        }
    }

    /// The label and the marks of a column.
    fn column(&mut self, column: &Column, x: usize) {
        let scene = self.scene;
        let class = match column {
            Column::Event(..) | Column::Crash(..) => "label",
            Column::Silent(_) | Column::Nothing => "label step",
            Column::Impossible(..) => "label wrong",
        };
        for (from_last, line) in column.label().iter().rev().enumerate() {
            self.svg.text(class, x, self.layout.line(from_last), line);
        }
        match column {
            Column::Event(_, event) => self.event(event, x),
            Column::Crash(_, _, lanes) => lanes.iter().for_each(|&lane| self.cross(x, lane)),
            Column::Silent(Step { machine: 0, .. }) => self.arrow("silent", x, scene.owner(), scene.memory()),
            Column::Silent(step) => self.arrow("silent", x, scene.cache(step.machine), scene.owner()),
            Column::Impossible(_, event) => self.impossible(x, scene.cache(event.machine)),
            Column::Nothing => {}
        }
        self.svg.end_line();
    }

    /// An event: a circle in its machine's lane, and an arrow to where it stores if that is another lane.
    fn event(&mut self, event: &Event, x: usize) {
        let lane = self.scene.cache(event.machine);
        let target = match event.operation {
            Operation::RStore | Operation::RRmw => self.scene.owner(),
            Operation::MStore | Operation::MRmw => self.scene.memory(),
            _ => lane,
        };
        if target != lane {
            self.arrow("store", x, lane, target);
        }
        self.svg.circle("event", x, self.layout.lane(lane), 7);
    }

    /// What goes from a lane to another one. Its white border shows it over bars between them.
    fn arrow(&mut self, class: &str, x: usize, from: usize, to: usize) {
        let (from, to) = (self.layout.lane(from), self.layout.lane(to));
        let (start, neck, tip) = match from < to {
            true => (from + BAR, to - BAR - 9, to - BAR),
            false => (from - BAR, to + BAR + 9, to + BAR),
        };
        self.svg.path("halo", &format!("M{x} {start}V{neck}"));
        self.svg.path(class, &format!("M{x} {start}V{neck}"));
        self.svg.path("tip", &format!("M{} {neck}L{x} {tip}L{} {neck}Z", x - HEAD, x + HEAD));
    }

    fn cross(&mut self, x: usize, lane: usize) {
        let (left, top, width) = (x - CROSS, self.layout.lane(lane) - CROSS, 2 * CROSS);
        self.svg.path("crash", &format!("M{left} {top}l{width} {width}m0 -{width}l-{width} {width}"));
    }

    /// A ring with a bar through it, as on a road sign.
    fn impossible(&mut self, x: usize, lane: usize) {
        let y = self.layout.lane(lane);
        self.svg.circle("impossible", x, y, 8);
        self.svg.path("impossible", &format!("M{} {}L{} {}", x - 6, y + 6, x + 6, y - 6));
    }
}
