//! What came of examining captures, and how it adds up to a row of the table. The commands differ in what they look at and
//! count, so both are left open here.

use crate::damage::Specimen;

/// Runs programs on a capture and holds what they do against each other.
pub trait Examiner: Sync {
    type Counts: Columns;

    fn examine(&self, specimen: &Specimen) -> Result<Finding<Self::Counts>, String>;
}

/// What a command counts: the columns of its table behind those that every table has.
pub trait Columns: Clone + Default + Send {
    fn heading() -> String;
    fn cells(&self) -> String;
    fn add(&mut self, more: &Self);
    /// Lines that tell of a record.
    fn lines(&self) -> usize;
}

/// What was counted, and the first difference found.
#[derive(Default)]
pub struct Finding<C> {
    pub captures: usize,
    pub bytes: usize,
    pub counts: C,
    pub difference: Option<String>,
}

impl<C: Columns> Finding<C> {
    /// Of one capture; a difference is told with the words for it.
    pub fn of(specimen: &Specimen, counts: C, difference: Option<String>) -> Finding<C> {
        let difference = difference.map(|found| format!("{}, {found}", specimen.what));
        Finding { captures: 1, bytes: specimen.bytes.len(), counts, difference }
    }

    /// Both as one; a difference found earlier stays.
    pub fn with(mut self, more: Finding<C>) -> Finding<C> {
        self.captures += more.captures;
        self.bytes += more.bytes;
        self.counts.add(&more.counts);
        self.difference = self.difference.or(more.difference);
        self
    }
}
