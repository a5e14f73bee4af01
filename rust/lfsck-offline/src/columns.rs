//! Lines with file, slot and object in columns.

use crate::fid::{MdtFid, OstFid};

/// The least width of a FID and of a slot.
const FID_WIDTH: usize = 24;
const SLOT_WIDTH: usize = 4;

/// A line.
pub struct Line {
    file: String,
    slot: String,
    object: String,
    rest: String,
}

impl Line {
    /// A line; what there is not is a dash.
    pub fn new(
        file: Option<MdtFid>,
        slot: Option<u32>,
        object: Option<OstFid>,
        rest: String,
    ) -> Line {
        let dash = || "-".to_string();
        Line {
            file: file.map_or_else(dash, |fid| fid.to_string()),
            slot: slot.map_or_else(dash, |slot| slot.to_string()),
            object: object.map_or_else(dash, |fid| fid.to_string()),
            rest,
        }
    }

    /// The names of the columns.
    pub fn heading(rest: &str) -> Line {
        Line {
            file: "file".to_string(),
            slot: "slot".to_string(),
            object: "object".to_string(),
            rest: rest.to_string(),
        }
    }
}

/// The lines below each other, the columns as wide as they need be.
pub fn text(lines: &[Line]) -> String {
    let widest = |least: usize, column: fn(&Line) -> &String| {
        let widths = lines.iter().map(|line| column(line).len());
        widths.fold(least, usize::max)
    };
    let file = widest(FID_WIDTH, |line| &line.file);
    let slot = widest(SLOT_WIDTH, |line| &line.slot);
    let object = widest(FID_WIDTH, |line| &line.object);
    let print = |line: &Line| {
        let Line { rest, .. } = line;
        let places = format!(
            "  {:<file$} {:>slot$}  {:<object$} {rest}",
            line.file, line.slot, line.object
        );
        format!("{}\n", places.trim_end())
    };
    lines.iter().map(print).collect()
}

#[cfg(test)]
mod tests {
    use super::*;
    use crate::fid::Fid;

    #[test]
    fn the_widest_line_decides() {
        let long = Fid::new(u64::MAX - 1, u32::MAX);
        let lines = [
            Line::heading("class"),
            Line::new(Some(MdtFid(long)), Some(u32::MAX), None, "A".to_string()),
            Line::new(None, None, Some(OstFid(long)), "B".to_string()),
        ];
        let text = text(&lines);
        let at: Vec<Option<usize>> = text
            .lines()
            .zip(["class", "A", "B"])
            .map(|(line, rest)| line.rfind(rest))
            .collect();
        assert!(at.windows(2).all(|pair| pair[0] == pair[1]), "{text}");
        assert!(text.contains("[0xfffffffffffffffe:0xffffffff:0x0] 4294967295  -"));
    }
}
