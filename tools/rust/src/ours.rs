//! Our check on a model, with what it promises of lent memory looked at.

use crate::finding::Finding;
use crate::lenoshale::{self, RECORD, Report};
use crate::model::Model;
use crate::rng::Rng;

/// What every lent byte holds before a call.
const MARK: u8 = 170;
const MARK_WORD: u32 = u32::from_ne_bytes([MARK; 4]);

/// One accepted call, with `room` bytes for findings: its report and the kept records.
fn call(m: &Model, cap: u16, room: usize) -> Result<(Report, Vec<u8>), String> {
    let need = m.work_needed();
    let mut findings = vec![MARK; room];
    let mut work = vec![MARK_WORD; need + 5];
    let report = lenoshale::check(m.lent(), cap, &mut findings, &mut work)
        .map_err(|refusal| format!("refused {refusal}"))?;
    if work[..need].iter().any(|&w| w != 0) {
        return Err("work is not zero".into());
    }
    if work[need..].iter().any(|&w| w != MARK_WORD) {
        return Err("work is changed behind the part that is needed".into());
    }
    let least = (cap as u64).min(report.total).min((room / RECORD) as u64);
    if report.kept != least {
        return Err(format!("kept {} and not {least}", report.kept));
    }
    let kept = report.kept as usize * RECORD;
    if findings[kept..].iter().any(|&b| b != MARK) {
        return Err("findings are changed behind those kept".into());
    }
    findings.truncate(kept);
    Ok((report, findings))
}

/// With one word of work too few: refused with 11, and nothing changed.
fn refuses_short_work(m: &Model) -> Result<(), String> {
    let mut findings = vec![MARK; 2 * RECORD];
    let mut work = vec![MARK_WORD; m.work_needed() - 1];
    let answer = lenoshale::check(m.lent(), 9, &mut findings, &mut work);
    if answer != Err(11) {
        return Err(format!("{answer:?} with a word of work too few"));
    }
    if findings.iter().any(|&b| b != MARK) || work.iter().any(|&w| w != MARK_WORD) {
        return Err("a refused call changed lent memory".into());
    }
    Ok(())
}

/// The cap that asks for so many, or for as many as a cap can.
fn capped(most: usize) -> u16 {
    most.min(u16::MAX.into()) as u16
}

/// How many findings a model has, and the first of them, as many as a cap can ask for.
pub struct Listed {
    pub total: usize,
    pub first: Vec<Finding>,
}

/// The findings of a model. A capped call, one without room and a refused one are made too.
pub fn findings(m: &Model, rng: &mut Rng) -> Result<Listed, String> {
    refuses_short_work(m)?;
    let (none, _) = call(m, 0, 0)?;
    let total = none.total as usize;
    let (all, records) = call(m, capped(total), total * RECORD)?;
    if all.total != none.total {
        return Err("another total with a cap".into());
    }
    let cap = rng.below(total + 3);
    let room = rng.below((total + 2) * RECORD);
    let (fewer, first) = call(m, capped(cap), room)?;
    if fewer.total != none.total || records[..first.len()] != first {
        return Err(format!(
            "another list or total with cap {cap} and room {room}"
        ));
    }
    let mut list = Vec::with_capacity(all.kept as usize);
    for r in records.chunks_exact(RECORD) {
        let finding = Finding::from_record(r);
        if finding.record() != r {
            return Err(format!("a byte that no field has isn't zero: {finding:?}"));
        }
        list.push(finding);
    }
    Ok(Listed { total, first: list })
}
