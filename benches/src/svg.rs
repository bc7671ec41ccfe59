//! Plots as SVG text: groups of bars.

/// The colours of the bars of a group, in order.
const COLOURS: [&str; 6] = ["#1b4f72", "#2e86c1", "#85c1e9", "#b9770e", "#e59866", "#6c7a89"];

const WIDTH: f64 = 900.0;
const HEIGHT: f64 = 460.0;
const LEFT: f64 = 90.0;
const RIGHT: f64 = 20.0;
const TOP: f64 = 90.0;
const BOTTOM: f64 = 60.0;

/// What a plot shows: groups of bars with one legend, and a height for each value.
pub struct Plot<'a> {
    pub title: &'a str,
    pub axis: &'a str,
    pub legend: Vec<String>,
    pub groups: Vec<(String, Vec<f64>)>,
    /// The values of the horizontal lines, with their labels.
    pub lines: Vec<(f64, String)>,
    /// A dashed line with its label.
    pub limit: Option<(f64, String)>,
    /// The place of a value between the bottom, 0, and the top, 1.
    pub scale: &'a dyn Fn(f64) -> f64,
    /// The label of a bar.
    pub label: &'a dyn Fn(f64) -> String,
}

/// Words with a white edge, so that lines behind them do not cross them.
fn text(x: f64, y: f64, size: u32, anchor: &str, words: &str) -> String {
    let edge = "stroke=\"#ffffff\" stroke-width=\"3\" paint-order=\"stroke\"";
    format!("<text x=\"{x:.1}\" y=\"{y:.1}\" font-size=\"{size}\" text-anchor=\"{anchor}\" {edge}>{words}</text>\n")
}

impl Plot<'_> {
    fn height(&self, value: f64) -> f64 {
        let room = HEIGHT - TOP - BOTTOM;
        HEIGHT - BOTTOM - room * (self.scale)(value).clamp(0.0, 1.0)
    }

    fn grid(&self) -> String {
        let mut out = String::new();
        let end = WIDTH - RIGHT;
        for (value, label) in &self.lines {
            let y = self.height(*value);
            out += &format!("<line x1=\"{LEFT}\" y1=\"{y:.1}\" x2=\"{end}\" y2=\"{y:.1}\" stroke=\"#dddddd\"/>\n");
            out += &text(LEFT - 8.0, y + 4.0, 12, "end", label);
        }
        let middle = (TOP + HEIGHT - BOTTOM) / 2.0;
        out += &format!(
            "<text x=\"20\" y=\"{middle}\" font-size=\"13\" text-anchor=\"middle\" transform=\"rotate(-90 20 {middle})\">{}</text>\n",
            self.axis
        );
        out
    }

    fn legends(&self) -> String {
        let mut out = String::new();
        let step = (WIDTH - LEFT - RIGHT) / self.legend.len() as f64;
        for (i, name) in self.legend.iter().enumerate() {
            let x = LEFT + step * i as f64;
            out += &format!("<rect x=\"{x:.1}\" y=\"44\" width=\"12\" height=\"12\" fill=\"{}\"/>\n", COLOURS[i]);
            out += &text(x + 17.0, 55.0, 12, "start", name);
        }
        out
    }

    fn bars(&self) -> String {
        let mut out = String::new();
        let step = (WIDTH - LEFT - RIGHT) / self.groups.len() as f64;
        for (g, (name, values)) in self.groups.iter().enumerate() {
            let bar = step * 0.84 / values.len() as f64;
            let start = LEFT + step * (g as f64 + 0.08);
            for (i, &value) in values.iter().enumerate() {
                let (x, y) = (start + bar * i as f64, self.height(value));
                let tall = HEIGHT - BOTTOM - y;
                let (wide, colour) = (bar - 3.0, COLOURS[i]);
                out += &format!("<rect x=\"{x:.1}\" y=\"{y:.1}\" width=\"{wide:.1}\" height=\"{tall:.1}\" fill=\"{colour}\"/>\n");
                out += &text(x + wide / 2.0, y - 4.0, 10, "middle", &(self.label)(value));
            }
            out += &text(LEFT + step * (g as f64 + 0.5), HEIGHT - BOTTOM + 20.0, 13, "middle", name);
        }
        out
    }

    fn dashed(&self) -> String {
        let Some((value, label)) = &self.limit else { return String::new() };
        let (y, end) = (self.height(*value), WIDTH - RIGHT);
        let line = format!("<line x1=\"{LEFT}\" y1=\"{y:.1}\" x2=\"{end}\" y2=\"{y:.1}\" stroke=\"#c0392b\" stroke-dasharray=\"6 4\"/>\n");
        line + &text(LEFT - 8.0, y + 4.0, 12, "end", label)
    }

    /// The plot as the text of an SVG file.
    pub fn draw(&self) -> String {
        let base = HEIGHT - BOTTOM;
        let end = WIDTH - RIGHT;
        format!(
            "<svg xmlns=\"http://www.w3.org/2000/svg\" viewBox=\"0 0 {WIDTH} {HEIGHT}\" font-family=\"sans-serif\">\n\
             <rect width=\"{WIDTH}\" height=\"{HEIGHT}\" fill=\"#ffffff\"/>\n{}{}{}{}{}\
             <line x1=\"{LEFT}\" y1=\"{base}\" x2=\"{end}\" y2=\"{base}\" stroke=\"#333333\"/>\n</svg>\n",
            text(LEFT, 28.0, 16, "start", self.title),
            self.grid(),
            self.dashed(),
            self.legends(),
            self.bars(),
        )
    }
}
