//! Where everything stands in a picture. Texts decide: each has a column that is wide enough for it, so that none
//! meets another one or a mark.

use super::scene::{Bar, Column, Scene};

/// The sizes of letters: of the title, of the verdict and the lanes' names, and of everything else.
pub const TITLE: usize = 14;
pub const NAME: usize = 13;
pub const SMALL: usize = 12;

/// The blank border.
pub const MARGIN: usize = 12;
/// From the middle of a column, where its marks are, to where a value may stand.
pub const MARK: usize = 16;
/// Half a bar's height.
pub const BAR: usize = 10;
/// The space on either side of a label, and of the lanes' names where they stand again.
pub const GAP: usize = 8;
/// From lane to lane.
const LANE: usize = 46;
/// From line to line of a label.
const LINE: usize = 16;
/// Wherever so many pixels are in sight, the name of every lane is.
const SIGHT: usize = 1200;

/// A width that a text does not exceed in the usual sans-serif fonts, of which DejaVu Sans and Verdana are the widest.
fn width(text: &str, size: usize) -> usize {
    let thousandths = |letter| match letter {
        'M' | 'W' | 'm' | 'w' => 1000,
        '0'..='9' => 660,
        ' ' | ',' | ':' | '-' | '(' | ')' | 'f' | 'i' | 'j' | 'l' | 'r' | 't' => 460,
        _ => 730,
    };
    (text.chars().map(thousandths).sum::<usize>() * size).div_ceil(1000)
}

/// The same for bold letters.
fn bold_width(text: &str, size: usize) -> usize {
    width(text, size) * 115 / 100
}

fn label_width(column: &Column) -> usize {
    column.label().iter().map(|line| width(line, SMALL)).max().unwrap_or(0)
}

fn value_width(bar: &Bar) -> usize {
    width(&bar.value.to_string(), SMALL)
}

/// A place where the lanes are named again.
pub struct Names {
    pub left: usize,
    /// The state that it stands in.
    pub state: usize,
}

pub struct Layout {
    /// Where the lanes begin and end.
    pub left: usize,
    pub right: usize,
    /// The middle of each column; column c stands between the states c and c + 1.
    pub middles: Vec<usize>,
    pub names: Vec<Names>,
    pub names_width: usize,
    /// The base lines of the title, of the verdict under it, and of each label's last line.
    pub title: usize,
    pub verdict: usize,
    label: usize,
    lanes: usize,
}

impl Layout {
    pub fn new(scene: &Scene) -> Layout {
        let names = |size| scene.lanes.iter().map(|lane| width(&lane.name, size)).max().unwrap_or(0);
        let values = scene.bars().map(value_width).max().unwrap_or(0);
        let lines = scene.columns.iter().map(|column| column.label().len()).max().unwrap_or(0);
        let title = MARGIN + TITLE;
        let (verdict, verdict_width) = match scene.verdict() {
            Some(words) => (title + 20, width(&words, NAME)),
            None => (title, 0),
        };
        let mut layout = Layout {
            left: MARGIN + names(NAME) + MARGIN,
            right: MARGIN + bold_width(&scene.title(), TITLE).max(verdict_width),
            middles: Vec::new(),
            names: Vec::new(),
            // A lane's value is repeated under its name.
            names_width: names(SMALL).max(values) + 2 * GAP,
            title,
            verdict,
            label: verdict + 12 + LINE * lines,
            lanes: scene.lanes.len(),
        };
        layout.place(scene);
        layout
    }

    /// Gives each column its place, and the names theirs: before a column after which they would be too late.
    fn place(&mut self, scene: &Scene) {
        let starting = starting(scene);
        let mut free = Free { label: self.left, mark: self.left + MARK + starting[0] };
        let mut named = MARGIN;
        for (c, column) in scene.columns.iter().enumerate() {
            let half = label_width(column).div_ceil(2) + GAP;
            let is_last = c + 1 == scene.columns.len();
            let next = if is_last { MARGIN } else { self.names_width };
            if free.after(half, starting[c + 1]).most() + next > named + SIGHT {
                named = free.most();
                self.names.push(Names { left: named, state: c });
                free = Free { label: named + self.names_width, mark: named + self.names_width };
            }
            self.middles.push(free.middle(half));
            free = free.after(half, starting[c + 1]);
        }
        self.right = self.right.max(free.most());
    }

    pub fn width(&self) -> usize {
        self.right + MARGIN
    }

    pub fn height(&self) -> usize {
        self.bottom() + MARGIN
    }

    /// Where the lanes' room begins.
    pub fn top(&self) -> usize {
        self.label + 10
    }

    /// Where the lanes' room ends.
    pub fn bottom(&self) -> usize {
        self.lane(self.lanes - 1) + BAR + GAP
    }

    /// The middle of a lane, counted from 0.
    pub fn lane(&self, lane: usize) -> usize {
        self.top() + 32 + LANE * lane
    }

    /// The base line of a label's line, counted from its last.
    pub fn line(&self, from_last: usize) -> usize {
        self.label - LINE * from_last
    }

    /// Where a state begins: in the middle of the column before it.
    pub fn start(&self, state: usize) -> usize {
        state.checked_sub(1).map_or(self.left, |column| self.middles[column])
    }

    /// Where a state ends: in the middle of the column after it.
    pub fn end(&self, state: usize) -> usize {
        self.middles.get(state).copied().unwrap_or(self.right)
    }
}

/// For each state, the width of the widest value whose bar starts with it.
fn starting(scene: &Scene) -> Vec<usize> {
    let mut widths = vec![0; scene.columns.len() + 1];
    for bar in scene.bars() {
        widths[bar.from] = widths[bar.from].max(value_width(bar));
    }
    widths
}

/// Where the next label may begin, and the next mark.
struct Free {
    label: usize,
    mark: usize,
}

impl Free {
    /// The middle of a column that comes next, with half the width of its label.
    fn middle(&self, half: usize) -> usize {
        (self.label + half).max(self.mark + MARK)
    }

    /// What is free after that column and the values that start with it.
    fn after(&self, half: usize, value: usize) -> Free {
        let middle = self.middle(half);
        Free { label: middle + half, mark: middle + MARK + value }
    }

    /// Where anything may begin.
    fn most(&self) -> usize {
        self.label.max(self.mark)
    }
}
