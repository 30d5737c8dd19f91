//! The hints of all objects in one run, interleaved.

use std::collections::BTreeMap;

use relink::Linked;
use relink::hauklivo::{HintInsn, HintRecord, Refusal, Reloc, RuleRecord, Tally, typed};

use crate::rust;

/// A plain run.
type Run = fn(&mut [u8], &[HintRecord], &[Reloc]) -> Result<Tally, Refusal>;

/// The linked objects of one layout, one after another.
#[derive(Default)]
pub struct Together {
    fixed: Vec<u8>,
    finished: Vec<u8>,
    entries: Vec<Reloc>,
    objects: Vec<Vec<HintRecord>>,
    records: Vec<Vec<RuleRecord>>,
    tally: Tally,
}

impl Together {
    pub fn add(&mut self, linked: &Linked) {
        let (start, entry) = (self.fixed.len() as u32, self.entries.len() as u32);
        let object = self.objects.len() as u32;
        let moved = |hint: &HintRecord| {
            let places = hint.places.map(|place| match place.entry {
                HintInsn::WITHOUT_ENTRY => place,
                number => HintInsn { entry: entry + number, ..place },
            });
            HintRecord { object, start: start + hint.start, places, ..*hint }
        };
        self.objects.push(linked.hints.lent.iter().map(moved).collect());
        self.records.push(linked.hints.records.clone());
        self.fixed.extend(&linked.fixed);
        self.finished.extend(&linked.image);
        self.entries.extend(&linked.hints.entries);
        let (sum, tally) = (&mut self.tally, &linked.hints.tally);
        sum.rewritten += tally.rewritten;
        sum.skipped += tally.skipped;
        sum.declined += tally.declined;
        sum.turned_down += tally.turned_down;
    }

    /// Runs all hints as one list that takes a hint of each object in turn, the last object first,
    /// by the port, plain and listed, and by the Rust. Each must leave what the objects' own runs left.
    pub fn differences(&self) -> Vec<String> {
        let longest = self.objects.iter().map(Vec::len).max().unwrap_or(0);
        let objects = || self.objects.iter().enumerate().rev();
        let turn = |i: usize| objects().filter(move |(_, hints)| i < hints.len()).map(move |(object, _)| (object, i));
        let turns: Vec<(usize, usize)> = (0..longest).flat_map(turn).collect();
        let hints: Vec<HintRecord> = turns.iter().map(|&(object, i)| self.objects[object][i]).collect();
        let mut found = Vec::new();
        let runs: [(&str, Run); 2] = [("the port", typed::apply_hints), ("the Rust", rust::apply_hints)];
        for (name, run) in runs {
            let mut image = self.fixed.clone();
            let tally = run(&mut image, &hints, &self.entries);
            if tally != Ok(self.tally) || image != self.finished {
                found.push(format!("all hints in one run: {name} leaves other bytes or another tally"));
            }
        }
        let (mut image, mut records) = (self.fixed.clone(), vec![RuleRecord::default(); hints.len()]);
        let tally = typed::apply_hints_listed(&mut image, &hints, &self.entries, &mut records);
        if tally != Ok(self.tally) || image != self.finished || records != self.records_of(&turns) {
            found.push("all hints in one listed run: the port leaves other bytes, tally or records".into());
        }
        found
    }

    /// The records of the objects' own runs, object by object, with the positions in a list of these hints: an object and a
    /// position in its own list.
    fn records_of(&self, turns: &[(usize, usize)]) -> Vec<RuleRecord> {
        let positions: BTreeMap<_, _> = turns.iter().copied().zip(0..).collect();
        let of = |(object, records): (usize, &Vec<RuleRecord>)| {
            let moved = |record: &RuleRecord| {
                let position = positions[&(object, record.position as usize)];
                RuleRecord { position, object: object as u32, ..*record }
            };
            records.iter().map(moved).collect::<Vec<_>>()
        };
        self.records.iter().enumerate().flat_map(of).collect()
    }
}
