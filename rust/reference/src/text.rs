//! The text of a table, and what the programs print.

use crate::machine::{self, Span};
use crate::{blocks, bounds, recording, table::HEADER, Job};

pub fn table_text(jobs: &[Job]) -> String {
    let mut out = String::from(HEADER) + "\r\n";
    for j in jobs {
        out += &format!("{},{},{},{},{},{},{}\r\n", j.chain, j.job, j.release, j.priority, j.least, j.most, j.deadline);
    }
    out
}

pub fn bounds_text(jobs: &[Job]) -> String {
    let b = bounds::bounds(jobs);
    let mut out = String::from("chain,job,ert,cja,itr,slack\r\n");
    for (i, j) in jobs.iter().enumerate() {
        let slack = j.deadline as i64 - b.itr[i] as i64;
        out += &format!("{},{},{},{},{},{}\r\n", j.chain, j.job, b.ert[i], b.cja[i], b.itr[i], slack);
    }
    out
}

/// By ITR, a row for each job and each other chain.
pub fn blocks_text(jobs: &[Job]) -> String {
    let mut out = String::from("chain,job,from,other,first,last\r\n");
    for (j, delay) in jobs.iter().zip(blocks::by(jobs, 3).unwrap()) {
        for (other, [first, last]) in (1..).zip(delay.named()).filter(|(other, _)| *other != j.chain) {
            out += &format!("{},{},{},{other},{first},{last}\r\n", j.chain, j.job, delay.from);
        }
    }
    out
}

pub fn trace_text(jobs: &[Job]) -> String {
    let most: Vec<u64> = jobs.iter().map(|j| j.most).collect();
    rows_text(&machine::trace(jobs, &most))
}

/// The rows of a trace or recording under their header.
pub fn rows_text(spans: &[Span]) -> String {
    let mut out = String::from(recording::HEADER) + "\r\n";
    for s in spans {
        out += &format!("{},{},{},{}\r\n", s.chain, s.job, s.from, s.to);
    }
    out
}

#[cfg(test)]
mod tests {
    use crate::table;

    #[test]
    fn the_table_of_the_scope() {
        let text = "chain,job,release,priority,least,most,deadline\r\n1,1,0,1,20,40,60\r\n1,2,20,3,5,10,60\r\n1,3,75,1,40,50,170\r\n\
                    1,4,130,3,85,85,260\r\n2,1,30,2,10,10,50\r\n2,2,60,2,50,50,120\r\n";
        let jobs = table::read(text.as_bytes()).unwrap();
        assert_eq!(super::table_text(&jobs), text);
        assert_eq!(
            super::bounds_text(&jobs),
            "chain,job,ert,cja,itr,slack\r\n1,1,100,100,50,10\r\n1,2,110,110,60,0\r\n1,3,220,185,175,-5\r\n1,4,305,270,260,0\r\n\
             2,1,125,125,50,0\r\n2,2,260,195,110,10\r\n"
        );
        assert_eq!(
            super::blocks_text(&jobs),
            "chain,job,from,other,first,last\r\n1,1,1,2,1,2\r\n1,2,1,2,1,2\r\n1,3,3,2,1,2\r\n1,4,3,2,1,2\r\n2,1,1,1,2,2\r\n2,2,2,1,2,2\r\n"
        );
        assert_eq!(
            super::trace_text(&jobs),
            "chain,job,from,to\r\n1,1,0,30\r\n2,1,30,40\r\n1,1,40,50\r\n1,2,50,60\r\n2,2,60,110\r\n1,3,110,160\r\n1,4,160,245\r\n"
        );
    }
}
