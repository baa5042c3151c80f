//! Sets handed by value: what is checked of them, and a further chain.

use crate::{bounds, Job};

/// The refusals of a record that comes after others, in their order.
pub fn check_record(before: &[Job], job: &Job) -> Result<(), u8> {
    if before.len() >= 64 {
        return Err(4);
    }
    if !next_in_order(before.last(), job) {
        return Err(5);
    }
    if job.chain > 16 || job.release > 1_000_000_000 || job.deadline > 4_000_000_000 {
        return Err(6);
    }
    if job.priority > 255 {
        return Err(12);
    }
    if [job.least, job.most].iter().any(|time| !(1..=1_000_000).contains(time)) {
        return Err(13);
    }
    if job.least > job.most {
        return Err(14);
    }
    Ok(())
}

/// The refusals of the first bad record, then 7.
pub fn check(jobs: &[Job]) -> Result<(), u8> {
    check_records(jobs)?;
    any_record(jobs)
}

/// The held jobs and behind them those of a further chain, if all deadlines are then met by the algorithm; the held set may be empty.
pub fn admit(held: &[Job], chain: &[Job], algorithm: u64) -> Result<Option<Vec<Job>>, u8> {
    let joined = join(held, chain)?;
    Ok(bounds::verdict(&joined, algorithm)?.then_some(joined))
}

/// The joined records: those of the new chain are numbered as the highest chain, from 1.
fn join(held: &[Job], chain: &[Job]) -> Result<Vec<Job>, u8> {
    check_records(held)?;
    let number = held.last().map_or(1, |last| last.chain + 1);
    let new = chain.iter().zip(1..).map(|(j, place)| Job { chain: number, job: place, ..*j });
    let joined: Vec<Job> = held.iter().copied().chain(new).collect();
    check_records(&joined)?;
    any_record(chain)?;
    Ok(joined)
}

fn check_records(jobs: &[Job]) -> Result<(), u8> {
    (0..jobs.len()).try_for_each(|i| check_record(&jobs[..i], &jobs[i]))
}

pub fn any_record(jobs: &[Job]) -> Result<(), u8> {
    if jobs.is_empty() {
        Err(7)
    } else {
        Ok(())
    }
}

fn next_in_order(last: Option<&Job>, job: &Job) -> bool {
    match last {
        None => (job.chain, job.job) == (1, 1),
        Some(l) => (job.chain, job.job) == (l.chain, l.job + 1) || (job.chain, job.job) == (l.chain + 1, 1),
    }
}

#[cfg(test)]
mod tests {
    use super::*;

    /// P4: all bounds are 12.
    const P4: Job = Job { chain: 1, job: 1, release: 5, priority: 1, least: 3, most: 7, deadline: 12 };

    #[test]
    fn limits_of_a_set() {
        assert_eq!(check(&[]), Err(7));
        assert_eq!(check(&[P4]), Ok(()));
        assert_eq!(check(&[P4, Job { job: 3, ..P4 }]), Err(5));
        let many: Vec<Job> = (1..=65).map(|job| Job { job, ..P4 }).collect();
        assert_eq!((check(&many[..64]), check(&many)), (Ok(()), Err(4)));
    }

    #[test]
    fn limits_of_values() {
        let checked = |release, priority, least, most, deadline| check(&[Job { release, priority, least, most, deadline, ..P4 }]);
        assert_eq!(checked(1_000_000_000, 255, 1_000_000, 1_000_000, 4_000_000_000), Ok(()));
        assert_eq!(checked(0, 0, 1, 1, 0), Ok(()));
        assert_eq!([checked(1_000_000_001, 0, 1, 1, 0), checked(0, 0, 1, 1, 4_000_000_001), checked(0, 256, 1, 1, 4_000_000_001)], [Err(6); 3]);
        assert_eq!([checked(0, 256, 1, 1, 0), checked(0, 256, 0, 1, 0), checked(0, 256, 2, 1, 0)], [Err(12); 3]);
        assert_eq!([checked(0, 0, 0, 1, 0), checked(0, 0, 1, 0, 0), checked(0, 0, 0, 0, 0)], [Err(13); 3]);
        assert_eq!([checked(0, 0, 1, 1_000_001, 0), checked(0, 0, 1_000_001, 1, 0)], [Err(13); 2]);
        assert_eq!([checked(0, 0, 2, 1, 0), checked(0, 0, 1_000_000, 999_999, 0)], [Err(14); 2]);
    }

    #[test]
    fn a_chain_joins_as_the_highest() {
        let equal = Job { chain: 9, job: 9, deadline: 19, ..P4 };
        assert_eq!(admit(&[], &[P4], 3), Ok(Some(vec![P4])));
        assert_eq!(admit(&[P4], &[equal], 3), Ok(None));
        assert_eq!(admit(&[Job { deadline: 19, ..P4 }], &[equal], 3).unwrap().unwrap()[1], Job { chain: 2, job: 1, ..equal });
        assert_eq!(admit(&[P4], &[], 3), Err(7));
        assert_eq!(admit(&[P4], &[equal], 4), Err(10));
    }
}
