use crate::{raw, Error, Handed, Point};

/// A session of trays: a scale, a selection, one region B and one to eight regions A, and the place of the walk over the points of all of them. Plain numbers, to be copied at will.
///
/// ```
/// use bowujita::{Error, Tray};
/// let disk = [3, 1, 0, 0, 0, 0, 0, 0, 0, 0, 0, 1, 0, 0, 0, 1, 0, 1, 0, 0, 0];
/// let half = [5, 1, 0, 1, 0, 0, 0, 0, 0, 0, 0];
/// let mut t = Tray::new();
/// assert_eq!(t.rewind(), Err(Error::NoJob));
/// assert_eq!(t.take(0, 0, &[&disk[..], &half].concat(), &disk), Ok(2));
/// let both = t.points().unwrap().filter(|p| p.is_in(1)).count();
/// assert_eq!((t.points().unwrap().count(), both), (9, 6));
/// ```
#[derive(Clone, Copy, Debug, Default, PartialEq, Eq)]
pub struct Tray {
    state: raw::TrayState,
}

/// A point of a tray, with the sum of 2^j over the regions j that hold it.
#[derive(Clone, Copy, Debug, PartialEq, Eq)]
pub struct TrayPoint {
    pub point: Point,
    pub regions: u8,
}

impl TrayPoint {
    /// Whether region j holds it.
    pub fn is_in(self, j: u32) -> bool {
        self.regions.checked_shr(j).is_some_and(|r| r & 1 == 1)
    }
}

impl Tray {
    /// A session without a tray.
    pub fn new() -> Tray {
        Tray::default()
    }

    /// Any numbers are some session of trays.
    pub fn from_raw(state: raw::TrayState) -> Tray {
        Tray { state }
    }

    pub fn as_raw(&self) -> &raw::TrayState {
        &self.state
    }

    fn left(&mut self, l: raw::TrayLeft) -> Result<raw::Reply, Error> {
        self.state = l.session;
        Error::check(l.reply.number).map(|()| l.reply)
    }

    /// A scale, the byte of a selection (0 new points, 1 all), the records of one to eight regions A back to back and that of B replace the tray there; how many regions A.
    pub fn take(&mut self, scale: u64, byte: u64, a: &[u8], b: &[u8]) -> Result<usize, Error> {
        let l = unsafe { raw::bowujita_tray_take(self.state, scale, byte, a.as_ptr(), a.len(), b.as_ptr(), b.len()) };
        self.left(l).map(|r| r.count)
    }

    /// As many of the next points as there is space for, five numbers each: the point's four, and the sum of 2^j over the regions j that hold it.
    pub fn hand_out(&mut self, numbers: &mut [i32]) -> Result<Handed, Error> {
        let l = unsafe { raw::bowujita_tray_hand_out(self.state, numbers.as_mut_ptr(), numbers.len()) };
        self.left(l).map(|r| Handed { count: r.count, ended: r.flag != 0 })
    }

    /// Back before the first point.
    pub fn rewind(&mut self) -> Result<(), Error> {
        let l = unsafe { raw::bowujita_tray_rewind(self.state) };
        self.left(l).map(|_| ())
    }

    /// Without a tray again.
    pub fn clear(&mut self) {
        self.state = unsafe { raw::bowujita_tray_clear(self.state) }.session;
    }

    /// The points that are left, from a copy of the session: this one does not move.
    pub fn points(&self) -> Result<TrayPoints, Error> {
        let mut p = TrayPoints { tray: *self, numbers: [0; 1280], at: 0, count: 0, ended: false };
        p.fill()?;
        Ok(p)
    }
}

/// The points that a session of trays has left.
#[derive(Clone, Debug)]
pub struct TrayPoints {
    tray: Tray,
    numbers: [i32; 1280],
    at: usize,
    count: usize,
    ended: bool,
}

impl TrayPoints {
    fn fill(&mut self) -> Result<(), Error> {
        let h = self.tray.hand_out(&mut self.numbers)?;
        self.at = 0;
        self.count = h.count;
        self.ended = h.ended;
        Ok(())
    }
}

impl Iterator for TrayPoints {
    type Item = TrayPoint;

    fn next(&mut self) -> Option<TrayPoint> {
        if self.at == self.count && (self.ended || self.fill().is_err() || self.count == 0) {
            return None;
        }
        let n = &self.numbers[5 * self.at..];
        self.at += 1;
        Some(TrayPoint { point: Point { a: n[0], b: n[1], c: n[2], d: n[3] }, regions: n[4] as u8 })
    }
}

impl core::iter::FusedIterator for TrayPoints {}
