//! The fingerprint of the fine mesh of an archive (docs/FINGERPRINT.md).

use crate::archive::replay;
use crate::mesh::{examine_table, Coarse, Layout};
use crate::sha256::sha256;
use crate::trial::{end_rows, sum_rows};
use crate::Refusal;

/// The text of a layout: a line a corner, then a line a cell.
pub fn text(coarse: &Coarse, layout: &Layout) -> String {
    let mut text = String::new();
    let (ends, sums) = (end_rows(coarse, layout), sum_rows(coarse, layout));
    for (number, (end, sum)) in ends.chunks(2).zip(sums.chunks(3)).enumerate() {
        text += &format!("{} {} {} {} {} {}\n", number, end[0], end[1], sum[0], sum[1], sum[2]);
    }
    for cell in &layout.cells {
        let parent = cell.parent.unwrap_or(65_535);
        let regular = u8::from(cell.regular);
        text += &format!("{} {} {} {} {}", cell.level, parent, cell.child, regular, cell.status);
        for corner in cell.corners {
            text += &format!(" {}", corner);
        }
        text += "\n";
    }
    text
}

/// The text of the mesh after all steps of an archive.
pub fn text_of(archive: &[u8]) -> Result<String, Refusal> {
    let (coarse, table) = replay(archive)?;
    let layout = examine_table(&coarse, &table)?;
    Ok(text(&coarse, &layout))
}

pub fn fingerprint(archive: &[u8]) -> Result<String, Refusal> {
    Ok(sha256(text_of(archive)?.as_bytes()))
}
