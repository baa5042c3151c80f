//! Tables, chains, running times and damaged texts from a seed.

use reference::{text, Job};

#[derive(Clone, Copy)]
pub enum Kind {
    /// A few chains of a few jobs with small figures, so that many figures meet.
    Small,
    /// Releases close to each other.
    Dense,
    /// Two priorities and small figures, so that there are many equals and readiness decides among them.
    Equal,
    /// One to three chains with many jobs.
    Long,
    /// Many short chains.
    Wide,
    /// Short jobs with releases far apart, so that most time is idle.
    Late,
    /// Figures at and near their limits.
    Extreme,
}

impl Kind {
    pub const ALL: [Kind; 7] = [Kind::Small, Kind::Dense, Kind::Equal, Kind::Long, Kind::Wide, Kind::Late, Kind::Extreme];

    pub fn tables(self) -> usize {
        match self {
            Kind::Small => 1500,
            Kind::Dense | Kind::Equal => 150,
            Kind::Long => 40,
            Kind::Wide | Kind::Late | Kind::Extreme => 60,
        }
    }
}

pub struct Draw(u64);

impl Draw {
    pub fn from_seed(seed: u64) -> Draw {
        Draw(seed)
    }

    fn next(&mut self) -> u64 {
        self.0 = self.0.wrapping_add(0x9e37_79b9_7f4a_7c15);
        let mut z = self.0;
        z = (z ^ (z >> 30)).wrapping_mul(0xbf58_476d_1ce4_e5b9);
        z = (z ^ (z >> 27)).wrapping_mul(0x94d0_49bb_1331_11eb);
        z ^ (z >> 31)
    }

    /// A number from `low` to `high`.
    pub fn range(&mut self, low: u64, high: u64) -> u64 {
        low + self.next() % (high - low + 1)
    }

    /// Whether one draw of so many falls here.
    pub fn one_in(&mut self, many: u64) -> bool {
        self.next() % many == 0
    }

    /// A number at or near the greatest, or anywhere below it.
    pub fn extreme(&mut self, low: u64, high: u64) -> u64 {
        match self.next() % 4 {
            0 => high,
            1 => low,
            2 => self.range(high.saturating_sub(3).max(low), high),
            _ => self.range(low, high),
        }
    }

    /// How many jobs each chain has.
    fn shape(&mut self, kind: Kind) -> Vec<u64> {
        let (chains, most) = match kind {
            Kind::Small => (self.range(1, 4), 4),
            Kind::Dense => (self.range(2, 6), 6),
            Kind::Equal => (self.range(2, 8), 4),
            Kind::Long => (self.range(1, 3), 21),
            Kind::Wide => (self.range(8, 16), 4),
            Kind::Late | Kind::Extreme => (self.range(1, 8), 8),
        };
        (0..chains).map(|_| self.range(1, most)).collect()
    }

    pub fn jobs(&mut self, kind: Kind) -> Vec<Job> {
        let mut jobs = Vec::new();
        for (c, count) in self.shape(kind).into_iter().enumerate() {
            for j in 0..count {
                let (release, priority, most) = match kind {
                    Kind::Small => (self.range(0, 20), self.range(0, 3), self.range(1, 6)),
                    Kind::Dense => (self.range(0, 60), self.range(0, 5), self.range(1, 12)),
                    Kind::Equal => (self.range(0, 12), self.range(0, 1), self.range(1, 6)),
                    Kind::Late => (self.extreme(0, 1_000_000_000), self.range(0, 5), self.range(1, 30)),
                    Kind::Long | Kind::Wide => (self.range(0, 400), self.range(0, 9), self.range(1, 30)),
                    Kind::Extreme => (self.extreme(0, 1_000_000_000), self.extreme(0, 255), self.extreme(1, 1_000_000)),
                };
                let deadline = match kind {
                    Kind::Extreme => self.extreme(0, 4_000_000_000),
                    _ => self.range(0, (4 * (release + most) + 20).min(4_000_000_000)),
                };
                jobs.push(Job { chain: c as u64 + 1, job: j + 1, release, priority, least: self.range(1, most), most, deadline });
            }
        }
        jobs
    }

    /// 64 jobs of up to a million ticks in chains of one length, all released at 0, or while others run, or over all the time that there is. All
    /// figures are multiples of one unit, so that releases and completions meet.
    pub fn long_jobs(&mut self) -> Vec<Job> {
        const UNIT: u64 = 100_000;
        let (per, last) = (64u64 >> self.range(0, 4), [0, 100, 400, 10_000][self.range(0, 3) as usize]);
        let job = |place| {
            let (release, priority, most) = (UNIT * self.range(0, last), self.range(0, 5), self.range(1, 10));
            let least = UNIT * self.range(1, most);
            Job { chain: 1 + place / per, job: 1 + place % per, release, priority, least, most: UNIT * most, deadline: 0 }
        };
        (0..64).map(job).collect()
    }

    /// A few jobs to join as a chain, whose own chain and job numbers are anything.
    pub fn chain(&mut self, kind: Kind) -> Vec<Job> {
        let count = self.range(1, 5) as usize;
        self.jobs(kind).into_iter().take(count).map(|j| Job { chain: self.extreme(0, u64::MAX - 1), job: self.extreme(0, 3), ..j }).collect()
    }

    /// A running time for each job: all least, all most, or any from least to most.
    pub fn times(&mut self, jobs: &[Job]) -> Vec<u64> {
        match self.next() % 4 {
            0 => jobs.iter().map(|j| j.least).collect(),
            1 => jobs.iter().map(|j| j.most).collect(),
            _ => jobs.iter().map(|j| self.extreme(j.least, j.most)).collect(),
        }
    }

    /// The text of a table; the last line lacks its end now and then.
    pub fn text(&mut self, jobs: &[Job]) -> Vec<u8> {
        let mut out = text::table_text(jobs).into_bytes();
        if self.one_in(8) {
            out.truncate(out.len() - 2);
        }
        out
    }

    /// The text with a few bytes changed, left out, put in or cut off, mostly behind its header.
    pub fn damaged_text(&mut self, header: &str, text: &[u8]) -> Vec<u8> {
        let mut out = text.to_vec();
        for _ in 0..self.range(1, 3) {
            if out.is_empty() {
                break;
            }
            let from = if self.one_in(8) { 0 } else { header.len().min(out.len() - 1) };
            let at = self.range(from as u64, out.len() as u64 - 1) as usize;
            let byte = *b"0123456789,,,\r\n\r\n -a\x00\xff".get((self.next() % 22) as usize).unwrap();
            match self.next() % 4 {
                0 => out[at] = byte,
                1 => {
                    out.remove(at);
                }
                2 => out.insert(at, byte),
                _ => out.truncate(at),
            }
        }
        out
    }
}
