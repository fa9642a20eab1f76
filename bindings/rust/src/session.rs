use crate::{raw, Error, Handed, Pattern, Point};

/// A job and the place of its walk, with the counts of what was handed out: plain numbers, to be copied at will.
#[derive(Clone, Copy, Debug, Default, PartialEq, Eq)]
pub struct Session {
    state: raw::State,
}

impl Session {
    /// A session that has read nothing.
    pub fn new() -> Session {
        Session::default()
    }

    /// Any numbers are some session.
    pub fn from_raw(state: raw::State) -> Session {
        Session { state }
    }

    pub fn as_raw(&self) -> &raw::State {
        &self.state
    }

    fn left(&mut self, l: raw::Left) -> Result<raw::Reply, Error> {
        self.state = l.session;
        Error::check(l.reply.number).map(|()| l.reply)
    }

    /// One record from the front of the bytes; the number of bytes taken.
    ///
    /// ```
    /// use bowujita::{Error, Session};
    /// let mut s = Session::new();
    /// assert_eq!(s.read(&[1, 12, 2]), Ok(2));
    /// assert_eq!(s.read(&[1, 12]), Err(Error::OutOfTurn));
    /// ```
    pub fn read(&mut self, bytes: &[u8]) -> Result<usize, Error> {
        let l = unsafe { raw::bowujita_read(self.state, bytes.as_ptr(), bytes.len()) };
        self.left(l).map(|r| r.count)
    }

    /// Every record of a whole input; a refusal comes with its place, that of a job that is not whole (9) with the input's length.
    pub fn read_all(&mut self, bytes: &[u8]) -> Result<(), (Error, usize)> {
        let mut at = 0;
        while at < bytes.len() {
            at += self.read(&bytes[at..]).map_err(|f| (f, at))?;
        }
        if self.state.stage == 4 { Ok(()) } else { Err((Error::NoJob, at)) }
    }

    /// As many of the next points as there is space for, four numbers each.
    pub fn hand_out(&mut self, numbers: &mut [i32]) -> Result<Handed, Error> {
        let l = unsafe { raw::bowujita_hand_out(self.state, numbers.as_mut_ptr(), numbers.len()) };
        self.left(l).map(|r| Handed { count: r.count, ended: r.flag != 0 })
    }

    /// Back before the first point.
    pub fn rewind(&mut self) -> Result<(), Error> {
        let l = unsafe { raw::bowujita_rewind(self.state) };
        self.left(l).map(|_| ())
    }

    /// A fresh session again.
    pub fn clear(&mut self) {
        self.state = unsafe { raw::bowujita_clear(self.state) }.session;
    }

    fn says(r: raw::Reply) -> Result<bool, Error> {
        Error::check(r.number).map(|()| r.flag != 0)
    }

    /// Whether the job lists a point.
    pub fn has_solution(&self) -> Result<bool, Error> {
        Session::says(unsafe { raw::bowujita_has_solution(self.state) })
    }

    /// Whether w is what the remembered operator makes of a listed point.
    pub fn has_image(&self, w: Point) -> Result<bool, Error> {
        Session::says(unsafe { raw::bowujita_has_image(self.state, w) })
    }

    /// The shortest pattern that the job allows.
    ///
    /// ```
    /// use bowujita::{Point, Session};
    /// let disk = [3, 1, 0, 0, 0, 0, 0, 0, 0, 0, 0, 1, 0, 0, 0, 1, 0, 1, 0, 0, 0];
    /// let mut s = Session::new();
    /// s.read_all(&[&[1, 8][..], &disk, &disk].concat()).unwrap();
    /// let p = s.shortest().unwrap();
    /// assert_eq!((p.scale, p.u, p.t), (0, Point { a: -1, b: 0, c: 0, d: 0 }, Point::default()));
    /// ```
    pub fn shortest(&self) -> Result<Pattern, Error> {
        let r = unsafe { raw::bowujita_shortest(self.state) };
        Error::check(r.number).map(|()| Pattern { scale: r.scale, u: r.u, t: r.t })
    }

    /// How many of the points handed out since the last rewind or clearing have each exponent from 0 to 20.
    ///
    /// ```
    /// # use bowujita::Session;
    /// # let disk = [3, 1, 0, 0, 0, 0, 0, 0, 0, 0, 0, 1, 0, 0, 0, 1, 0, 1, 0, 0, 0];
    /// let mut s = Session::new();
    /// s.read_all(&[&[1, 1, 6, 1][..], &disk, &disk].concat()).unwrap();
    /// s.hand_out(&mut [0; 100]).unwrap();
    /// assert_eq!(s.tally()[..3], [9, 8, 0]);
    /// ```
    pub fn tally(&self) -> [u128; 21] {
        let t = unsafe { raw::bowujita_tally(self.state) };
        t.counts.map(|n| (n.hi as u128) << 64 | n.lo as u128)
    }

    /// The points that are left, from a copy of the session: this one does not move.
    ///
    /// ```
    /// # use bowujita::Session;
    /// # let disk = [3, 1, 0, 0, 0, 0, 0, 0, 0, 0, 0, 1, 0, 0, 0, 1, 0, 1, 0, 0, 0];
    /// let mut s = Session::new();
    /// s.read_all(&[&[1, 2][..], &disk, &disk].concat()).unwrap();
    /// for v in s.points().unwrap() {
    ///     assert_eq!(v.exponent(2), 2);
    /// }
    /// ```
    pub fn points(&self) -> Result<Points, Error> {
        let mut p = Points { session: *self, numbers: [0; 1024], at: 0, count: 0, ended: false };
        p.fill()?;
        Ok(p)
    }

    /// The scale of the job, 0 where there is none.
    pub fn scale(&self) -> u8 {
        self.state.k
    }
}

/// The points that a session has left.
#[derive(Clone, Debug)]
pub struct Points {
    session: Session,
    numbers: [i32; 1024],
    at: usize,
    count: usize,
    ended: bool,
}

impl Points {
    fn fill(&mut self) -> Result<(), Error> {
        let h = self.session.hand_out(&mut self.numbers)?;
        self.at = 0;
        self.count = h.count;
        self.ended = h.ended;
        Ok(())
    }
}

impl Iterator for Points {
    type Item = Point;

    fn next(&mut self) -> Option<Point> {
        if self.at == self.count && (self.ended || self.fill().is_err() || self.count == 0) {
            return None;
        }
        let n = &self.numbers[4 * self.at..];
        self.at += 1;
        Some(Point { a: n[0], b: n[1], c: n[2], d: n[3] })
    }
}

impl core::iter::FusedIterator for Points {}
