//! The picture of a recipe's firing.
//! Follows the page on the bench, 'card curve'.

use super::firing::{time, total, Step, BEGINNING};
use super::numbers::{nearest, tenths};
use super::words::kind;

/// The page's text, with a mark for each of its numbers, sentences and `@` lines.
const PICTURE: &str = include_str!("curve.svg");

/// What the picture is measured by: the seconds across it, the tenths of a degree from line
/// to line and those up to its top.
struct Scale {
    span: u64,
    apart: u64,
    ceiling: u64,
}

impl Scale {
    fn of(steps: &[Step], peak: u64) -> Scale {
        let apart = if peak < 5000 { 1000 } else { 2000 };
        Scale {
            span: total(steps).max(3600),
            apart,
            ceiling: ((peak + 1000) / apart + 1) * apart,
        }
    }

    fn x(&self, seconds: u64) -> u64 {
        120 + nearest(1440 * seconds, self.span)
    }

    fn y(&self, tenths: impl Into<u64>) -> u64 {
        800 - nearest(660 * tenths.into(), self.ceiling)
    }

    fn degrees(&self) -> Vec<u64> {
        let lines = 0..=self.ceiling / self.apart;
        lines.map(|line| line * self.apart).collect()
    }

    fn hours(&self) -> Vec<u64> {
        let mut rounds = (0..).flat_map(|zeros| [1, 2, 5].map(|digit| digit * 10u64.pow(zeros)));
        let apart = rounds.find(|hours| self.span <= 12 * hours * 3600);
        let apart = apart.expect("the rounds have no end");
        (0..=self.span / 3600).step_by(apart as usize).collect()
    }
}

/// A step, and the seconds from the beginning at which its target is reached.
struct Timed<'a> {
    step: &'a Step,
    begins: u64,
    reaches: u64,
    ends: u64,
}

fn timed(steps: &[Step]) -> Vec<Timed<'_>> {
    let clock = steps.iter().scan(0, |now, step| {
        let begins = *now;
        *now += step.seconds();
        let reaches = begins + step.going_seconds();
        let ends = *now;
        Some(Timed {
            step,
            begins,
            reaches,
            ends,
        })
    });
    clock.collect()
}

/// The picture of the steps of a recipe.
pub fn curve(recipe: u64, steps: &[Step]) -> String {
    let targets = steps.iter().map(|step| step.to);
    let peak = targets.fold(BEGINNING, u16::max);
    let scale = Scale::of(steps, peak.into());
    let timed = timed(steps);
    let first_at_peak = timed.iter().position(|timed| timed.step.to == peak);
    let labels = timed.iter().enumerate();
    let labels =
        labels.map(|(place, timed)| labels_of(&scale, timed, first_at_peak == Some(place)));
    let lines: String = timed.iter().map(|timed| lines_of(&scale, timed)).collect();
    let [legend_line, legend_text] = match lines.contains("class=\"unsaid\"") {
        true => [LEGEND_LINE, LEGEND_TEXT],
        false => [""; 2],
    };
    let texts = [
        ("RECIPE", recipe.to_string()),
        ("TIME", time(steps)),
        ("@ legend line\n", legend_line.to_string()),
        ("@ legend text\n", legend_text.to_string()),
        ("@ degrees lines\n", degrees_lines(&scale)),
        ("@ hours lines\n", hours_lines(&scale)),
        ("@ degrees texts\n", degrees_texts(&scale)),
        ("@ hours texts\n", hours_texts(&scale)),
        ("@ lines\n", lines),
        ("@ labels\n", labels.collect()),
    ];
    let filled = |picture: String, (mark, text): &(&str, String)| picture.replace(mark, text);
    texts.iter().fold(PICTURE.to_string(), filled)
}

const LEGEND_LINE: &str = r##"<line x1="1300" y1="38" x2="1350" y2="38" stroke="#707070" stroke-dasharray="2 14"/>
"##;
const LEGEND_TEXT: &str = r##"<text x="1362" y="47">time unknown</text>
"##;

fn degrees_lines(scale: &Scale) -> String {
    let line = |tenths: u64| {
        let y = scale.y(tenths);
        format!("<line x1=\"120\" y1=\"{y}\" x2=\"1560\" y2=\"{y}\"/>\n")
    };
    scale.degrees().into_iter().map(line).collect()
}

fn degrees_texts(scale: &Scale) -> String {
    let text = |tenths: u64| {
        let (y, degrees) = (scale.y(tenths) + 9, tenths / 10);
        format!("<text x=\"106\" y=\"{y}\">{degrees}</text>\n")
    };
    scale.degrees().into_iter().map(text).collect()
}

fn hours_lines(scale: &Scale) -> String {
    let line = |hours: u64| {
        let x = scale.x(3600 * hours);
        format!("<line x1=\"{x}\" y1=\"140\" x2=\"{x}\" y2=\"800\"/>\n")
    };
    scale.hours().into_iter().map(line).collect()
}

fn hours_texts(scale: &Scale) -> String {
    let text = |hours: u64| {
        let x = scale.x(3600 * hours);
        format!("<text x=\"{x}\" y=\"838\">{hours}</text>\n")
    };
    scale.hours().into_iter().map(text).collect()
}

/// The line of the going, then that of the hold, where there are any.
fn lines_of(scale: &Scale, timed: &Timed) -> String {
    let step = timed.step;
    let points = [
        (timed.begins, step.from),
        (timed.reaches, step.to),
        (timed.ends, step.to),
    ];
    let [begins, reaches, ends] =
        points.map(|(seconds, tenths)| (scale.x(seconds), scale.y(tenths)));
    let class = match step.going {
        Ok(_) => kind(&step.record),
        Err(_) => "unsaid",
    };
    let lines = [
        (step.from != step.to, line(class, begins, reaches)),
        (step.record.hold != 0, line("hold", reaches, ends)),
    ];
    let there = lines.into_iter().filter(|(there, _)| *there);
    there.map(|(_, line)| line).collect()
}

fn line(class: &str, (x1, y1): (u64, u64), (x2, y2): (u64, u64)) -> String {
    let stroke = match class {
        "climb" => r##"stroke="#b3261e""##,
        "hold" => r##"stroke="#d08700""##,
        "drop" => r##"stroke="#1f5fa8""##,
        _ => r##"stroke="#707070" stroke-dasharray="2 14""##,
    };
    format!("<line class=\"{class}\" x1=\"{x1}\" y1=\"{y1}\" x2=\"{x2}\" y2=\"{y2}\" {stroke}/>\n")
}

/// The disc and the labels of a step; `at_peak` is the first whose target is the peak.
fn labels_of(scale: &Scale, timed: &Timed, at_peak: bool) -> String {
    let Timed { step, .. } = timed;
    let (degrees, minutes) = (tenths(step.to), step.record.hold);
    let [reached, ended] = [timed.reaches, timed.ends].map(|seconds| scale.x(seconds));
    let y = scale.y(step.to);
    let text = |y: u64, said: &str| format!("<text x=\"{ended}\" y=\"{y}\">{said}</text>\n");
    let (disc, degrees) = match at_peak {
        true => (
            format!("<circle cx=\"{reached}\" cy=\"{y}\" r=\"9\"/>\n"),
            format!("peak {degrees}"),
        ),
        false => (String::new(), degrees),
    };
    let [upper, lower] = match step.from > step.to {
        true => [y + 34, y + 62],
        false => [y - 44, y - 16],
    };
    match (minutes, at_peak) {
        (0, false) => String::new(),
        (0, true) => disc + &text(y - 16, &degrees),
        _ => disc + &text(upper, &degrees) + &text(lower, &format!("{minutes} min")),
    }
}
