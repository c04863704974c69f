//! The ratios of a page's table as a picture: left of the line at 1 the library is faster.

use drawing::{Anchor, Area, Drawing};

use crate::page::HEAD;

/// Pixels.
const LABELS: f64 = 270.0;
const SCALE: f64 = 340.0;
const ROW: f64 = 30.0;
const BAR: f64 = 10.0;
const TOP: f64 = 40.0;
const BOTTOM: f64 = 46.0;
const RIGHT: f64 = 44.0;

const STYLE: &str = "\
.minima { fill: #1f6f8b } .medians { fill: #99c1cf } .even { stroke: #b03030; stroke-width: 1.5 }
.grid { stroke: #ddd } .number, .axis { font-size: 10px; fill: #555 } .title { font-weight: bold }
";

/// A workload with its two ratios, library over ordinary server.
#[derive(Debug, PartialEq)]
struct Row {
    name: String,
    minima: f64,
    medians: f64,
}

fn row(line: &str) -> Result<Row, String> {
    let cells: Vec<&str> = line.trim_matches('|').split('|').map(str::trim).collect();
    let [name, .., minima, medians] = cells[..] else {
        return Err(format!("no row of the table: {line}"));
    };
    let number = |cell: &str| {
        let number: Result<f64, _> = cell.parse();
        number.map_err(|_| format!("`{cell}` is no ratio: {line}"))
    };
    Ok(Row {
        name: name.to_owned(),
        minima: number(minima)?,
        medians: number(medians)?,
    })
}

/// The rows of the table that [`HEAD`] begins.
fn rows(page: &str) -> Result<Vec<Row>, String> {
    let lines = page.lines().skip_while(|line| *line != HEAD).skip(2);
    let rows = lines.take_while(|line| line.starts_with('|')).map(row);
    let rows: Vec<Row> = rows.collect::<Result<_, _>>()?;
    if rows.is_empty() {
        return Err("the page has no table of ratios".into());
    }
    Ok(rows)
}

/// The picture of a page's table.
pub fn draw(page: &str) -> Result<String, String> {
    let rows = rows(page)?;
    let largest = rows.iter().flat_map(|row| [row.minima, row.medians]);
    let largest = largest.fold(1.0, f64::max);
    // Whole steps of a quarter, so that the scale ends at a mark.
    let end = (largest * 4.0).ceil() / 4.0;
    let mut drawing = Drawing::new();
    let x = |ratio: f64| LABELS + SCALE * ratio;
    let bottom = TOP + ROW * rows.len() as f64;
    axis(&mut drawing, end, bottom);
    for (place, row) in rows.iter().enumerate() {
        bars(&mut drawing, row, TOP + ROW * place as f64, x(end));
    }
    drawing.line("even", (x(1.0), TOP - 6.0), (x(1.0), bottom));
    Ok(drawing.finish(x(end) + RIGHT, bottom + BOTTOM, STYLE))
}

/// Marks at every quarter, and what the numbers are.
fn axis(drawing: &mut Drawing, end: f64, bottom: f64) {
    let title = "time of the library over that of the ordinary server, by workload";
    drawing.words("title", Anchor::Start, (10.0, 18.0), title);
    for quarter in 0..=(end * 4.0).round() as u32 {
        let ratio = f64::from(quarter) / 4.0;
        let x = LABELS + SCALE * ratio;
        drawing.line("grid", (x, TOP - 6.0), (x, bottom));
        let place = (x, bottom + 14.0);
        drawing.words("axis", Anchor::Middle, place, &format!("{ratio:.2}"));
    }
    let legend = bottom + 24.0;
    for (class, left, name) in [
        ("minima", LABELS, "minima"),
        ("medians", LABELS + 90.0, "medians"),
    ] {
        drawing.area(class, Area(left, legend, BAR, BAR), name);
        let place = (left + BAR + 5.0, legend + BAR);
        drawing.words("axis", Anchor::Start, place, name);
    }
}

/// The two bars of a row; their numbers stand in a column at the scale's end.
fn bars(drawing: &mut Drawing, row: &Row, top: f64, end: f64) {
    let place = (LABELS - 8.0, top + BAR + 4.0);
    drawing.words("name", Anchor::End, place, &row.name);
    for (class, ratio, top) in [
        ("minima", row.minima, top),
        ("medians", row.medians, top + BAR),
    ] {
        let says = format!("{}, {class}: {ratio:.2}", row.name);
        drawing.area(class, Area(LABELS, top, SCALE * ratio, BAR), &says);
        let place = (end + 8.0, top + BAR - 1.0);
        drawing.words("number", Anchor::Start, place, &format!("{ratio:.2}"));
    }
}

#[cfg(test)]
mod tests {
    use super::{draw, rows, Row, HEAD};
    use record::tree::root;
    use std::fs;

    #[test]
    fn a_table_is_read_by_its_head() {
        let page = format!(
            "| other | 1 |\n\n{HEAD}\n|---|\n| a mix | 9 | 1 | 2 | 3 | 4 | 0.50 | 1.25 |\n\nend\n"
        );
        let expected = Row {
            name: "a mix".into(),
            minima: 0.5,
            medians: 1.25,
        };
        assert_eq!(rows(&page), Ok(vec![expected]));
        assert!(rows("no table").is_err());
        assert!(rows(&page.replace("1.25", "fast")).is_err());
    }

    #[test]
    fn the_picture_in_docs_is_that_of_the_page() {
        let read = |name: &str| fs::read_to_string(root().join("docs").join(name)).expect(name);
        let drawn = draw(&read("SPEED.md")).expect("a table");
        assert!(drawn == read("speed.svg"), "draw it again: make speed-plot");
    }
}
