//! ERT, CJA and ITR, after the figures of the paper, over chains of jobs.

use crate::Job;

/// A job of a chain with its effective release.
#[derive(Clone, Copy)]
struct Link {
    release: u64,
    priority: u64,
    most: u64,
}

type Chains = Vec<Vec<Link>>;
type Figures = Vec<Vec<u64>>;

/// The bounds of all jobs in table order, and how many rounds ITR took.
pub struct Bounds {
    pub ert: Vec<u64>,
    pub cja: Vec<u64>,
    pub itr: Vec<u64>,
    pub rounds: u64,
}

pub fn bounds(jobs: &[Job]) -> Bounds {
    let chains = chains(jobs);
    let (itr, rounds) = itr(&chains);
    Bounds { ert: ert(&chains, true).concat(), cja: cja(&chains, |_, _, _, _, _| true).concat(), itr: itr.concat(), rounds }
}

/// The bounds by algorithm 1 ERT, 2 CJA or 3 ITR; another is refused with 10.
pub fn by(jobs: &[Job], algorithm: u64) -> Result<Vec<u64>, u8> {
    let chains = chains(jobs);
    match algorithm {
        1 => Ok(ert(&chains, true).concat()),
        2 => Ok(cja(&chains, |_, _, _, _, _| true).concat()),
        3 => Ok(itr(&chains).0.concat()),
        _ => Err(10),
    }
}

/// Whether each bound by the algorithm is at or before its job's deadline.
pub fn verdict(jobs: &[Job], algorithm: u64) -> Result<bool, u8> {
    Ok(jobs.iter().zip(by(jobs, algorithm)?).all(|(j, bound)| bound <= j.deadline))
}

fn chains(jobs: &[Job]) -> Chains {
    let mut out: Chains = Vec::new();
    let mut earliest = 0;
    for j in jobs {
        if j.job == 1 {
            out.push(Vec::new());
            earliest = 0;
        }
        let release = j.release.max(earliest);
        earliest = release + j.least;
        out.last_mut().unwrap().push(Link { release, priority: j.priority, most: j.most });
    }
    out
}

/// For each chain but one the largest sum over a block of jobs at least as urgent; a job that `keep` leaves out counts 0.
fn interference(chains: &Chains, own: usize, priority: u64, keep: impl Fn(usize, usize) -> bool) -> u64 {
    let mut total = 0;
    for (c, chain) in chains.iter().enumerate().filter(|(c, _)| *c != own) {
        let blocks = chain.split(|link| link.priority < priority);
        let mut place = 0;
        let mut largest = 0;
        for block in blocks {
            let sum = block.iter().enumerate().filter(|(i, _)| keep(c, place + i)).map(|(_, link)| link.most).sum();
            largest = largest.max(sum);
            place += block.len() + 1;
        }
        total += largest;
    }
    total
}

fn ert(chains: &Chains, with_interference: bool) -> Figures {
    let mut out = Vec::new();
    for (c, chain) in chains.iter().enumerate() {
        let mut before = 0;
        let mut row = Vec::new();
        for link in chain {
            let inter = if with_interference { interference(chains, c, link.priority, |_, _| true) } else { 0 };
            before = link.release.max(before) + link.most + inter;
            row.push(before);
        }
        out.push(row);
    }
    out
}

/// CJA, where `keep(chain, k, j, other chain, other job)` says whether the other job counts in the pair (k, j).
fn cja(chains: &Chains, keep: impl Fn(usize, usize, usize, usize, usize) -> bool) -> Figures {
    let mut out = Vec::new();
    for (c, chain) in chains.iter().enumerate() {
        let mut row = Vec::new();
        for j in 0..chain.len() {
            let candidates = (0..=j).map(|k| {
                let part = &chain[k..=j];
                let demand: u64 = part.iter().map(|l| l.most).sum();
                let lowest = part.iter().map(|l| l.priority).min().unwrap();
                chain[k].release + demand + interference(chains, c, lowest, |u, v| keep(c, k, j, u, v))
            });
            row.push(candidates.max().unwrap());
        }
        out.push(row);
    }
    out
}

fn itr(chains: &Chains) -> (Figures, u64) {
    let mut bounds = ert(chains, false);
    let mut rounds = 0;
    loop {
        let previous = bounds;
        rounds += 1;
        bounds = cja(chains, |c, k, j, u, v| {
            chains[c][k].release < previous[u][v] && chains[u][v].release < previous[c][j]
        });
        if bounds == previous {
            return (bounds, rounds);
        }
    }
}
