//! A chart of bars as SVG: for each row its ratio to the arrays, with its number, and
//! the aim as a mark. The colours follow the reader's choice of light or dark.

use std::fmt::Write;

/// A row: its name, how many times the arrays' time it takes, and the aim.
pub struct Bar {
    pub name: String,
    pub ratio: f64,
    pub aim: Option<f64>,
}

/// All rows, under a title and a line that says what is measured.
pub struct Chart {
    pub title: String,
    pub subtitle: String,
    pub axis: String,
    pub bars: Vec<Bar>,
}

/// Sizes in pixels. A letter of a name has about this width.
const LETTER: f64 = 7.0;
const PLOT: f64 = 520.0;
const ROW: f64 = 26.0;
const THICK: f64 = 15.0;
const TOP: f64 = 76.0;
const MARGIN: f64 = 20.0;
/// The room for a number behind the longest bar.
const NUMBER: f64 = 52.0;

const STYLE: &str = "\
text { font: 13px system-ui, 'Segoe UI', Helvetica, Arial, sans-serif; fill: #1f2328; }
.title { font-size: 17px; font-weight: 600; }
.faint { fill: #59636e; }
.number { font-variant-numeric: tabular-nums; paint-order: stroke; stroke: #ffffff; stroke-width: 5px; }
.page { fill: #ffffff; }
.grid { stroke: #d8dee4; }
.one { stroke: #59636e; stroke-dasharray: 4 3; }
.aim { stroke: #1f2328; stroke-width: 3; }
.reached { fill: #3b82c4; }
.missed { fill: #dd7a24; }
.free { fill: #98a1aa; }
@media (prefers-color-scheme: dark) {
text { fill: #e6edf3; }
.faint { fill: #9da7b3; }
.number { stroke: #0d1117; }
.page { fill: #0d1117; }
.grid { stroke: #30363d; }
.one { stroke: #9da7b3; }
.aim { stroke: #f0f6fc; }
.reached { fill: #4b93d6; }
.missed { fill: #e08a3c; }
.free { fill: #6e7681; }
}
";

impl Chart {
    pub fn svg(&self) -> String {
        let layout = Layout::of(self);
        let mut svg = String::new();
        let (width, height) = (layout.width(), layout.height());
        svg += &format!(
            "<svg xmlns=\"http://www.w3.org/2000/svg\" width=\"{width}\" height=\"{height}\" \
             viewBox=\"0 0 {width} {height}\" role=\"img\">\n"
        );
        svg += &format!(
            "<title>{}</title>\n<style>\n{STYLE}</style>\n",
            escaped(&self.title)
        );
        svg += &format!("<rect class=\"page\" width=\"{width}\" height=\"{height}\"/>\n");
        svg += &text(MARGIN, 30.0, "title", "start", &self.title);
        svg += &text(MARGIN, 51.0, "faint", "start", &self.subtitle);
        self.axis(&layout, &mut svg);
        for (place, bar) in self.bars.iter().enumerate() {
            bar.draw(&layout, place, &mut svg);
        }
        self.legend(&layout, &mut svg);
        svg + "</svg>\n"
    }

    /// Lines from top to bottom with their numbers, from 0 on; the one at 1, where the
    /// arrays are, is dashed.
    fn axis(&self, layout: &Layout, svg: &mut String) {
        let bottom = layout.bottom();
        let ticks = (layout.end / layout.step).round() as usize;
        for tick in 0..=ticks {
            let value = tick as f64 * layout.step;
            let x = layout.x(value);
            *svg += &line(x, TOP, bottom, "grid");
            *svg += &text(x, bottom + 17.0, "faint", "middle", &format!("{value}"));
        }
        *svg += &line(layout.x(1.0), TOP, bottom, "one");
        let middle = layout.x(layout.end / 2.0);
        *svg += &text(middle, bottom + 38.0, "faint", "middle", &self.axis);
    }

    fn legend(&self, layout: &Layout, svg: &mut String) {
        let y = layout.bottom() + 64.0;
        let has = |class: &str| self.bars.iter().any(|bar| bar.class() == class);
        let mut x = MARGIN;
        for (class, words) in [
            ("reached", "aim reached"),
            ("missed", "aim missed"),
            ("free", "no aim"),
        ] {
            if has(class) {
                let _ = writeln!(
                    svg,
                    "<rect class=\"{class}\" x=\"{x:.1}\" y=\"{:.1}\" width=\"14\" height=\"12\"/>",
                    y - 11.0
                );
                *svg += &text(x + 20.0, y, "faint", "start", words);
                x += 40.0 + LETTER * words.len() as f64;
            }
        }
        if self.bars.iter().any(|bar| bar.aim.is_some()) {
            *svg += &line(x + 4.0, y - 13.0, y + 3.0, "aim");
            *svg += &text(x + 14.0, y, "faint", "start", "aim, at most");
            x += 34.0 + LETTER * 12.0;
        }
        let _ = writeln!(
            svg,
            "<line class=\"one\" x1=\"{x:.1}\" y1=\"{0:.1}\" x2=\"{1:.1}\" y2=\"{0:.1}\"/>",
            y - 5.0,
            x + 18.0
        );
        *svg += &text(x + 24.0, y, "faint", "start", "the arrays");
    }
}

impl Bar {
    fn class(&self) -> &'static str {
        match self.aim {
            Some(aim) if self.ratio <= aim => "reached",
            Some(_) => "missed",
            None => "free",
        }
    }

    /// Where the number is: behind the bar, or behind the mark where that is so near
    /// that it would stand in the number.
    fn number_at(&self, layout: &Layout) -> f64 {
        let end = layout.x(self.ratio);
        let mark = self.aim.map_or(0.0, |aim| layout.x(aim));
        let near = end - 2.0..end + NUMBER;
        7.0 + if near.contains(&mark) {
            mark.max(end)
        } else {
            end
        }
    }

    /// The name, the bar, the mark and the number.
    fn draw(&self, layout: &Layout, place: usize, svg: &mut String) {
        let top = TOP + ROW * place as f64 + (ROW - THICK) / 2.0;
        let foot = top + THICK - 3.0;
        let (start, end) = (layout.x(0.0), layout.x(self.ratio));
        *svg += &text(start - 10.0, foot, "name", "end", &self.name);
        let _ = writeln!(
            svg,
            "<rect class=\"{}\" x=\"{start:.1}\" y=\"{top:.1}\" width=\"{:.1}\" height=\"{THICK}\"/>",
            self.class(),
            end - start
        );
        if let Some(aim) = self.aim {
            *svg += &line(layout.x(aim), top - 3.0, top + THICK + 3.0, "aim");
        }
        let number = format!("{:.2}", self.ratio);
        *svg += &text(self.number_at(layout), foot, "number", "start", &number);
    }
}

/// Where things are: names at the left, bars from 0 on.
struct Layout {
    names: f64,
    rows: usize,
    step: f64,
    /// The value at the end of the axis.
    end: f64,
}

impl Layout {
    fn of(chart: &Chart) -> Layout {
        let bars = || chart.bars.iter();
        let longest = bars().map(|bar| bar.name.chars().count()).max();
        let values = bars().flat_map(|bar| [bar.ratio, bar.aim.unwrap_or(1.0)]);
        let most = values.fold(1.0, f64::max);
        let steps = [0.25, 0.5, 1.0, 2.0, 5.0, 10.0, 20.0, 50.0, 100.0];
        let step = steps.into_iter().find(|step| most / step <= 9.0);
        let step = step.unwrap_or(most / 9.0);
        Layout {
            names: LETTER * longest.unwrap_or(0) as f64,
            rows: chart.bars.len(),
            step,
            end: (most / step).ceil() * step,
        }
    }

    fn x(&self, value: f64) -> f64 {
        MARGIN + self.names + 10.0 + PLOT * value / self.end
    }

    fn bottom(&self) -> f64 {
        TOP + ROW * self.rows as f64
    }

    fn width(&self) -> f64 {
        (self.x(self.end) + NUMBER + MARGIN).ceil()
    }

    fn height(&self) -> f64 {
        self.bottom() + 84.0
    }
}

fn text(x: f64, y: f64, class: &str, anchor: &str, words: &str) -> String {
    let words = escaped(words);
    format!(
        "<text class=\"{class}\" x=\"{x:.1}\" y=\"{y:.1}\" text-anchor=\"{anchor}\">{words}</text>\n"
    )
}

fn line(x: f64, from: f64, to: f64, class: &str) -> String {
    format!(
        "<line class=\"{class}\" x1=\"{x:.1}\" y1=\"{from:.1}\" x2=\"{x:.1}\" y2=\"{to:.1}\"/>\n"
    )
}

fn escaped(text: &str) -> String {
    let text = text.replace('&', "&amp;").replace('<', "&lt;");
    text.replace('>', "&gt;")
}

#[cfg(test)]
mod tests {
    use super::*;

    fn chart(bars: &[(&str, f64, Option<f64>)]) -> Chart {
        let bar = |(name, ratio, aim): &(&str, f64, Option<f64>)| Bar {
            name: name.to_string(),
            ratio: *ratio,
            aim: *aim,
        };
        Chart {
            title: "A <title>".into(),
            subtitle: "what".into(),
            axis: "times".into(),
            bars: bars.iter().map(bar).collect(),
        }
    }

    #[test]
    fn every_row_has_its_bar_and_number() {
        let rows = [
            ("one & two", 0.5, Some(1.2)),
            ("b", 6.08, Some(2.0)),
            ("c", 1.0, None),
        ];
        let svg = chart(&rows).svg();
        for part in [
            "A &lt;title&gt;",
            "one &amp; two",
            ">0.50<",
            ">6.08<",
            "class=\"missed\"",
            "class=\"reached\"",
            "class=\"free\"",
            ">0<",
            ">7<",
        ] {
            assert!(svg.contains(part), "{part} in {svg}");
        }
        assert_eq!(svg.matches("<rect class=\"missed\"").count(), 2);
    }

    /// A number stands behind its bar, and never on the mark.
    #[test]
    fn numbers_stand_clear_of_marks() {
        let mut ratio = 0.0;
        while ratio < 3.0 {
            let chart = chart(&[("a", ratio, Some(1.2)), ("b", 3.0, None)]);
            let layout = Layout::of(&chart);
            let (number, mark) = (chart.bars[0].number_at(&layout), layout.x(1.2));
            assert!(number >= layout.x(ratio) + 7.0, "{ratio}");
            assert!(mark + 5.0 <= number || number + 40.0 <= mark, "{ratio}");
            ratio += 0.01;
        }
    }

    /// Bars are as long as their ratios say.
    #[test]
    fn bars_begin_at_0() {
        let chart = chart(&[("a", 1.0, Some(1.2)), ("b", 2.0, None)]);
        let layout = Layout::of(&chart);
        let length = |value| layout.x(value) - layout.x(0.0);
        assert!((length(2.0) - 2.0 * length(1.0)).abs() < 1e-9);
        assert!((length(layout.end) - PLOT).abs() < 1e-9);
        assert_eq!((layout.step, layout.end), (0.25, 2.0));
    }
}
