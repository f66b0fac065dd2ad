//! What a change list shows: its clusters with their styles.

use oracle::changes::places;
use std::str;
use unicode_segmentation::UnicodeSegmentation;
use unicode_width::UnicodeWidthStr;

/// A cluster, and the attribute body that it is drawn with.
pub type Cluster<'l> = (&'l str, &'l [u8]);

const BODY: usize = 25;
const DEFAULT: &[u8] = &[0; BODY];

/// The clusters of each text change by itself, each with the body of the last attribute
/// change before it. None where a row drawing has no such list.
pub fn shown(list: &[u8]) -> Option<Vec<Cluster<'_>>> {
    let mut style = DEFAULT;
    let mut clusters = Vec::new();
    for (kind, body) in places(list)? {
        let body = &list[body];
        match kind {
            1 => {
                let text = str::from_utf8(body).ok()?;
                clusters.extend(text.graphemes(true).map(|cluster| (cluster, style)));
            }
            2 if body.len() == BODY => style = body,
            3 if body.len() == 4 => {}
            _ => return None,
        }
    }
    Some(clusters)
}

pub fn columns(clusters: &[Cluster]) -> usize {
    clusters.iter().map(|(cluster, _)| cluster.width()).sum()
}
