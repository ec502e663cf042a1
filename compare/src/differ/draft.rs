//! A file before it becomes bytes: lines of fields, which can be damaged field by field and laid out in many ways.

use super::rng::Rng;

#[derive(Clone, Debug, Default)]
pub struct Draft {
    pub lines: Vec<Vec<String>>,
}

impl Draft {
    /// Adds a line, given with one space between its fields.
    pub fn line(&mut self, fields: impl AsRef<str>) {
        self.lines.push(fields.as_ref().split(' ').map(String::from).collect());
    }

    pub fn append(&mut self, mut other: Draft) {
        self.lines.append(&mut other.lines);
    }

    /// One space between fields, LF after each line.
    pub fn tidy(&self) -> Vec<u8> {
        self.lines.iter().flat_map(|fields| (fields.join(" ") + "\n").into_bytes()).collect()
    }

    /// The same fields in a layout drawn at random. It never damages a draft whose lines are short enough.
    pub fn laid_out(&self, rng: &mut Rng) -> Vec<u8> {
        let layout = Layout::random(rng);
        let mut file = Vec::new();
        for fields in &self.lines {
            while rng.percent(layout.blank_lines) {
                file.resize(file.len() + rng.below(81), b' ');
                file.extend_from_slice(layout.line_end(rng));
            }
            file.extend(layout.spaced(fields, rng).into_bytes());
            file.extend_from_slice(layout.line_end(rng));
        }
        if rng.percent(layout.no_last_end) {
            while matches!(file.last(), Some(b'\n' | b'\r')) {
                file.pop();
            }
        }
        file
    }
}

/// Chances in percent.
struct Layout {
    blank_lines: usize,
    wide_spaces: usize,
    carriage_returns: usize,
    no_last_end: usize,
}

impl Layout {
    fn random(rng: &mut Rng) -> Layout {
        Layout {
            blank_lines: *rng.pick(&[0, 0, 5, 30]),
            wide_spaces: *rng.pick(&[0, 0, 10, 60]),
            carriage_returns: *rng.pick(&[0, 0, 100, 50]),
            no_last_end: *rng.pick(&[0, 100]),
        }
    }

    fn line_end(&self, rng: &mut Rng) -> &'static [u8] {
        if rng.percent(self.carriage_returns) {
            b"\r\n"
        } else {
            b"\n"
        }
    }

    fn spaced(&self, fields: &[String], rng: &mut Rng) -> String {
        let mut spare = 80usize.saturating_sub(fields.join(" ").len());
        let mut line = String::new();
        for (place, field) in fields.iter().enumerate() {
            self.widen(&mut line, &mut spare, rng);
            if place > 0 {
                line.push(' ');
            }
            line.push_str(field);
        }
        self.widen(&mut line, &mut spare, rng);
        line
    }

    /// Adds some of the spaces that the line has room for, now and then all.
    fn widen(&self, line: &mut String, spare: &mut usize, rng: &mut Rng) {
        if rng.percent(self.wide_spaces) {
            let spaces = if rng.percent(5) { *spare } else { rng.within(0..=6).min(*spare) };
            line.extend(std::iter::repeat_n(' ', spaces));
            *spare -= spaces;
        }
    }
}
