//! The row of drives that `morning`, `mail`, `session`, `upgrade` and `fitting`
//! speak of, and pools of any row, of which `controller` and `upgrade` have
//! several at a time.

use super::{answered, line};
use crate::layout::{layout, Layout};
use crate::pool::{fail, repair, write, Record};
use crate::pool_count::{audit, panel};

/// N=2 K=1 P=5 and cookie 7, with these units and tiles.
pub(super) fn row(u: u64, t: u64) -> Layout {
    layout(2, 1, 5, u, t, 7)
}

/// A pool of any row; what becomes of it is told in an output that it is lent.
#[derive(Clone)]
pub(super) struct Pool {
    pub layout: Layout,
    pub record: Record,
    pub image: Vec<u8>,
}

impl Pool {
    /// No failures, and this file.
    pub fn of(layout: Layout, file: &[u8]) -> Pool {
        assert_eq!(file.len() as u64, layout.derived().capacity);
        let (record, mut image) = (Record::default(), vec![0; layout.derived().image as usize]);
        assert_eq!(write(&layout, &record, &mut image, 0, file), 0);
        Pool {
            layout,
            record,
            image,
        }
    }

    /// A drive dies, and its bytes become ff.
    pub fn lose(&mut self, out: &mut String, drive: usize) {
        let (refusal, record) = fail(&self.layout, &self.record, &self.image, drive as u64);
        self.record = record;
        let length = self.image.len() / self.layout.p as usize;
        self.image[drive * length..(drive + 1) * length].fill(255);
        line!(out, "Drive {drive} dies: {}", answered(refusal));
    }
}

/// The row with units of 8 bytes and one tile, and what is told of it.
pub(super) struct Row {
    pub layout: Layout,
    pub record: Record,
    pub image: Vec<u8>,
    pub out: String,
}

impl Row {
    pub fn new() -> Row {
        let layout = row(8, 1);
        Row {
            layout,
            record: Record::default(),
            image: vec![0; layout.derived().image as usize],
            out: String::new(),
        }
    }

    pub fn lose(&mut self, target: u64) {
        let (refusal, record) = fail(&self.layout, &self.record, &self.image, target);
        self.record = record;
        line!(self.out, "Drive {target} dies: {}", answered(refusal));
    }

    pub fn mend(&mut self) {
        let (refusal, record, count) = repair(&self.layout, &self.record, &mut self.image);
        self.record = record;
        line!(
            self.out,
            "The row is repaired: {count} units were missing, {}",
            answered(refusal)
        );
    }

    /// What the service panel shows, and what an audit of the count answers.
    pub fn inspect(&mut self) {
        let (refusal, counts) = panel(&self.layout, &self.record, &self.image);
        let shown = match refusal {
            0 => format!(
                "{} for repair, {} of {} dead drives repaired, ",
                waits(counts.waiting),
                counts.repaired,
                counts.failed
            ),
            _ => String::new(),
        };
        line!(self.out, "The service panel: {shown}{}", answered(refusal));
        let audited = audit(&self.layout, &self.record, &self.image);
        line!(self.out, "The count is audited: {}", answered(audited));
    }
}

/// How many units the panel says to wait, in words.
fn waits(units: u64) -> String {
    match units {
        0 => "no unit waits".to_string(),
        1 => "1 unit waits".to_string(),
        units => format!("{units} units wait"),
    }
}

/// A record that is another's but for its count of missing units.
pub(super) fn with_count(record: Record, waiting: u64) -> Record {
    Record { waiting, ..record }
}

/// What stood on a drive of an image of this row is gone.
pub(super) fn wipe(image: &mut [u8], target: usize) {
    fill_drive(image, target, 255);
}

/// Every byte of a drive of an image of this row becomes this one.
pub(super) fn fill_drive(image: &mut [u8], target: usize, byte: u8) {
    let drive = image.len() / 5;
    image[target * drive..(target + 1) * drive].fill(byte);
}
