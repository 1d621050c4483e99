//! The pictures of docs/NET.md, drawn from the numbers that a run stored: lines, axes, and a legend beside them. They have a ground of their own, so that they can be
//! read in a dark viewer too.

use std::fmt::Write as _;
use std::path::Path;

use crate::report::grouped;
use crate::{HUBS, MTUS};

const WIDTH: f64 = 820.0;
const HEIGHT: f64 = 430.0;
/// The plot's edges.
const LEFT: f64 = 76.0;
const RIGHT: f64 = 620.0;
const TOP: f64 = 48.0;
const BOTTOM: f64 = 368.0;
/// Lines differ in colour and in their strokes.
const STROKES: [(&str, &str); 5] =
    [("#0b5fa5", "none"), ("#c2410c", "9 4"), ("#15803d", "2 4"), ("#7e22ce", "12 4 2 4"), ("#111827", "5 5")];

struct Line {
    name: String,
    points: Vec<(f64, f64)>,
}

struct Axis {
    title: &'static str,
    /// Powers of ten instead of equal steps.
    tenfold: bool,
    /// Where it ends, if that is given.
    end: Option<f64>,
    unit: &'static str,
}

struct Chart {
    title: String,
    across: Axis,
    up: Axis,
    lines: Vec<Line>,
}

/// 1, 2 or 5 and zeros, so that there are four to eight steps.
fn step(most: f64) -> f64 {
    let mut step = 1.0;
    for factor in [2.0, 2.5, 2.0].into_iter().cycle() {
        if most / step <= 8.0 {
            break;
        }
        step *= factor;
    }
    step
}

impl Axis {
    /// Its beginning, its end, and where it has marks.
    fn marks(&self, values: impl Iterator<Item = f64>) -> (f64, f64, Vec<f64>) {
        let most = values.fold(1.0, f64::max);
        if self.tenfold {
            let marks: Vec<f64> =
                (1..).map(|power| 10f64.powi(power)).take_while(|mark| *mark <= most * 1.01).collect();
            return (marks[0], most, marks);
        }
        let step = step(self.end.unwrap_or(most));
        let end = self.end.unwrap_or((most / step).ceil() * step);
        (0.0, end, (0..).map(|count| f64::from(count) * step).take_while(|mark| *mark <= end * 1.001).collect())
    }

    /// Where a value stands, from 0 to 1.
    fn place(&self, (begin, end): (f64, f64), value: f64) -> f64 {
        if self.tenfold { (value / begin).ln() / (end / begin).ln() } else { (value - begin) / (end - begin) }
    }
}

impl Chart {
    fn svg(&self) -> String {
        let points = || self.lines.iter().flat_map(|line| line.points.iter());
        let (x0, x1, across) = self.across.marks(points().map(|point| point.0));
        let (y0, y1, up) = self.up.marks(points().map(|point| point.1));
        let x = |value: f64| LEFT + (RIGHT - LEFT) * self.across.place((x0, x1), value);
        let y = |value: f64| BOTTOM - (BOTTOM - TOP) * self.up.place((y0, y1), value);
        let mut svg = format!(
            "<svg xmlns=\"http://www.w3.org/2000/svg\" viewBox=\"0 0 {WIDTH} {HEIGHT}\" width=\"{WIDTH}\" height=\"{HEIGHT}\" font-family=\"DejaVu Sans, Verdana, sans-serif\" font-size=\"13\" fill=\"#111827\">\n\
             <title>{title}</title>\n\
             <rect x=\"0.5\" y=\"0.5\" width=\"{}\" height=\"{}\" rx=\"6\" fill=\"#ffffff\" stroke=\"#9ca3af\"/>\n\
             <text x=\"{LEFT}\" y=\"28\" font-size=\"15\" font-weight=\"bold\">{title}</text>\n",
            WIDTH - 1.0,
            HEIGHT - 1.0,
            title = self.title
        );
        let mut put = |text: std::fmt::Arguments| svg.write_fmt(text).expect("a text grows");
        for mark in across {
            let at = x(mark);
            put(format_args!(
                "<line x1=\"{at:.1}\" y1=\"{TOP}\" x2=\"{at:.1}\" y2=\"{BOTTOM}\" stroke=\"#e5e7eb\"/>\n"
            ));
            put(format_args!(
                "<text x=\"{at:.1}\" y=\"{}\" text-anchor=\"middle\">{}{}</text>\n",
                BOTTOM + 19.0,
                grouped(mark as u64),
                self.across.unit
            ));
        }
        for mark in up {
            let at = y(mark);
            put(format_args!(
                "<line x1=\"{LEFT}\" y1=\"{at:.1}\" x2=\"{RIGHT}\" y2=\"{at:.1}\" stroke=\"#e5e7eb\"/>\n"
            ));
            put(format_args!(
                "<text x=\"{}\" y=\"{:.1}\" text-anchor=\"end\">{}{}</text>\n",
                LEFT - 8.0,
                at + 4.5,
                grouped(mark as u64),
                self.up.unit
            ));
        }
        put(format_args!(
            "<path d=\"M {LEFT} {TOP} V {BOTTOM} H {RIGHT}\" fill=\"none\" stroke=\"#374151\" stroke-width=\"1.5\"/>\n"
        ));
        put(format_args!(
            "<text x=\"{}\" y=\"{}\" text-anchor=\"middle\">{}</text>\n",
            (LEFT + RIGHT) / 2.0,
            BOTTOM + 44.0,
            self.across.title
        ));
        let middle = (TOP + BOTTOM) / 2.0;
        put(format_args!(
            "<text x=\"20\" y=\"{middle}\" text-anchor=\"middle\" transform=\"rotate(-90 20 {middle})\">{}</text>\n",
            self.up.title
        ));
        for (place, (line, (colour, strokes))) in self.lines.iter().zip(STROKES).enumerate() {
            let way: Vec<String> = line.points.iter().map(|&(a, b)| format!("{:.1},{:.1}", x(a), y(b))).collect();
            let look = format!(
                "fill=\"none\" stroke=\"{colour}\" stroke-width=\"2.5\" stroke-dasharray=\"{strokes}\" stroke-linejoin=\"round\""
            );
            put(format_args!("<polyline points=\"{}\" {look}/>\n", way.join(" ")));
            let at = TOP + 14.0 + 26.0 * place as f64;
            put(format_args!("<path d=\"M {} {at} H {}\" {look}/>\n", RIGHT + 18.0, RIGHT + 58.0));
            put(format_args!("<text x=\"{}\" y=\"{}\">{}</text>\n", RIGHT + 66.0, at + 4.5, line.name));
        }
        svg + "</svg>\n"
    }
}

/// Lines of a stored file as words.
struct Rows(Vec<Vec<String>>);

impl Rows {
    fn of(file: &Path) -> Rows {
        let text = std::fs::read_to_string(file).unwrap_or_else(|error| panic!("{}: {error}", file.display()));
        Rows(
            text.lines()
                .filter(|line| !line.starts_with('#'))
                .map(|line| line.split('\t').map(String::from).collect())
                .collect(),
        )
    }

    /// The numbers from the sixth word on, the turn, of those with this size, MTU, mode and one of these parts; 32 records.
    fn of_net(&self, hubs: usize, mtu: usize, mode: &str, parts: &[&str]) -> Vec<Vec<f64>> {
        let wanted = [hubs.to_string(), "32".into(), mtu.to_string(), mode.into()];
        let rows = self.0.iter().filter(|row| row[..4] == wanted && parts.contains(&row[4].as_str()));
        rows.map(|row| row[5..].iter().map(|word| word.parse().expect("a number")).collect()).collect()
    }
}

const TURN: usize = 0;
const AT: usize = 1;
const ON: usize = 2;
const AGREE: usize = 3;
const LATE: usize = 4;
const BACK: usize = 5;
const DATAGRAMS: usize = 3;

/// In a hundred of the hubs that are on, tick for tick; the mean of all turns. A turn that is over stays as it ended.
fn share(rows: &[Vec<f64>], count: usize, begin: f64) -> Vec<(f64, f64)> {
    let turns = rows.iter().map(|row| row[TURN] as usize).max().map_or(0, |turn| turn + 1);
    let most = rows.iter().map(|row| row[AT] as usize).max().unwrap_or(0);
    let mut points = vec![(0.0, begin)];
    for at in 1..=most {
        let of = |turn: usize| {
            let row = rows.iter().filter(|row| row[TURN] as usize == turn && row[AT] as usize <= at).last();
            row.map_or(0.0, |row| 100.0 * row[count] / row[ON])
        };
        points.push((at as f64, (0..turns).map(of).sum::<f64>() / turns as f64));
    }
    points
}

fn percent(title: &'static str) -> Axis {
    Axis { title, tenfold: false, end: Some(100.0), unit: " %" }
}

fn ticks(title: &'static str) -> Axis {
    Axis { title, tenfold: false, end: None, unit: "" }
}

fn sizes(ticks: &Rows, part: &str, count: usize, begin: f64) -> Vec<Line> {
    let line = |hubs: usize| Line {
        name: format!("{} hubs", grouped(hubs as u64)),
        points: share(&ticks.of_net(hubs, 1_400, "guarded", &[part]), count, begin),
    };
    // Sizes that were not played have no line. Who agrees stays so.
    let mut lines: Vec<Line> = HUBS.map(line).into_iter().filter(|line| line.points.len() > 1).collect();
    let last = |line: &Line| line.points[line.points.len() - 1];
    let end = lines.iter().map(|line| last(line).0).fold(0.0, f64::max);
    for line in &mut lines {
        let (_, share) = last(line);
        line.points.push((end, share));
    }
    lines
}

/// While hubs are switched off and on, and then until all agree.
fn back(ticks: &Rows, mtu: usize, mode: &str) -> Vec<(f64, f64)> {
    let rows = ticks.of_net(1_000, mtu, mode, &["Life", "End"]);
    let points = rows.iter().enumerate().map(|(at, row)| (at as f64 + 1.0, 100.0 * row[BACK] / row[ON]));
    [(0.0, 0.0)].into_iter().chain(points).collect()
}

/// Draws all pictures from the numbers in one folder into another.
pub fn all(from: &Path, out: &Path) {
    let (of_ticks, of_parts) = (Rows::of(&from.join("ticks.tsv")), Rows::of(&from.join("parts.tsv")));
    let mtus = |points: &dyn Fn(usize) -> Vec<(f64, f64)>, name: &str| {
        MTUS.map(|mtu| Line { name: format!("{name}MTU {}", grouped(mtu as u64)), points: points(mtu) })
    };
    let sent = |mtu: usize| {
        let point = |hubs: usize| {
            let rows = of_parts.of_net(hubs, mtu, "guarded", &["Full"]);
            rows.first().map(|row| (hubs as f64, row[DATAGRAMS] / hubs as f64))
        };
        HUBS.into_iter().filter_map(point).collect()
    };
    let mut came_back: Vec<Line> = mtus(&|mtu| back(&of_ticks, mtu, "plain"), "plain, ").into();
    let guarded = MTUS.map(|mtu| back(&of_ticks, mtu, "guarded"));
    let longest = guarded.into_iter().max_by(|one, other| {
        let most = |points: &Vec<(f64, f64)>| points.iter().map(|point| point.1).fold(0.0, f64::max);
        most(one).total_cmp(&most(other)).then(one.len().cmp(&other.len()))
    });
    came_back.push(Line { name: "guarded, any MTU".into(), points: longest.expect("four MTUs") });
    let charts = [
        (
            "agree-one",
            Chart {
                title: "Hubs that agree after one write".into(),
                across: ticks("ticks after the write"),
                up: percent("share of the hubs"),
                lines: sizes(&of_ticks, "One", AGREE, 0.0),
            },
        ),
        (
            "agree-full",
            Chart {
                title: "Hubs that agree after a full table's writes, MTU 1,400".into(),
                across: ticks("ticks after the writes"),
                up: percent("share of the hubs"),
                lines: sizes(&of_ticks, "Full", AGREE, 0.0),
            },
        ),
        (
            "deleted",
            Chart {
                title: "Hubs that still show a deleted reading".into(),
                across: ticks("ticks after the delete"),
                up: percent("share of the hubs"),
                lines: sizes(&of_ticks, "Delete", LATE, 100.0),
            },
        ),
        (
            "back",
            Chart {
                title: "Hubs that show a deleted reading again, 1,000 hubs".into(),
                across: ticks("ticks; hubs are switched off and on until tick 150"),
                up: percent("share of the hubs that are on"),
                lines: came_back,
            },
        ),
        (
            "datagrams",
            Chart {
                title: "Datagrams a hub sends until all agree on a full table".into(),
                across: Axis { title: "hubs", tenfold: true, end: None, unit: "" },
                up: Axis { title: "datagrams", tenfold: false, end: None, unit: "" },
                lines: mtus(&sent, "").into(),
            },
        ),
    ];
    std::fs::create_dir_all(out).expect("a folder to draw into");
    for (name, chart) in charts {
        let file = out.join(format!("{name}.svg"));
        std::fs::write(&file, chart.svg()).expect("a file to draw into");
        println!("{}", file.display());
    }
}
