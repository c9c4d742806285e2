//! The ways through a function, and which has most copies. A function is a graph of blocks; a loop
//! in it is a set of blocks that all lead to each other.

use crate::copies::found::{found, Found, Piece};
use crate::copies::places::Module;
use crate::copies::Sizes;
use crate::llvm::blocks::Function;
use std::collections::{BTreeSet, HashMap};

/// What is counted along a way: each in words, or without end where it stands in a loop.
#[derive(Clone, Default)]
pub struct Tally {
    words: Vec<String>,
    endless: bool,
}

impl Tally {
    fn add(&mut self, more: &Tally) {
        self.words.extend(more.words.iter().cloned());
        self.endless |= more.endless;
    }

    fn greater<'a>(&'a self, other: &'a Tally) -> &'a Tally {
        let size = |tally: &Tally| (tally.endless, tally.words.len());
        if size(other) > size(self) {
            other
        } else {
            self
        }
    }

    pub fn words(&self) -> Option<Vec<String>> {
        (!self.endless).then(|| self.words.clone())
    }

    pub fn number(&self) -> Option<usize> {
        (!self.endless).then_some(self.words.len())
    }
}

#[derive(Clone, Default)]
pub struct Way {
    pub copies: Tally,
    pub fills: Tally,
}

impl Way {
    fn add(&mut self, more: &Way) {
        self.copies.add(&more.copies);
        self.fills.add(&more.fills);
    }

    /// The most of each, which may be on different ways.
    fn most(&self, other: &Way) -> Way {
        Way {
            copies: self.copies.greater(&other.copies).clone(),
            fills: self.fills.greater(&other.fills).clone(),
        }
    }

    /// The same in a loop: once round is as good as any number of times.
    fn repeated(mut self) -> Way {
        for tally in [&mut self.copies, &mut self.fills] {
            tally.endless |= !tally.words.is_empty();
        }
        self
    }
}

pub struct Ways<'a> {
    module: Module<'a>,
    sizes: Sizes,
    known: HashMap<String, Way>,
    open: Vec<String>,
}

/// What one block does by itself.
struct Work {
    way: Way,
    pieces: Vec<Piece>,
}

impl<'a> Ways<'a> {
    pub fn new(functions: &'a HashMap<String, Function>, sizes: Sizes) -> Ways<'a> {
        let module = Module::new(functions);
        Ways { module, sizes, known: HashMap::new(), open: Vec::new() }
    }

    /// The most on any way through a function, with all that it calls.
    pub fn of(&mut self, name: &str) -> Result<Way, String> {
        if let Some(way) = self.known.get(name) {
            return Ok(way.clone());
        }
        if matches!(name, "memcpy" | "memmove" | "memset") {
            return Ok(Way::default());
        }
        let functions = self.module.functions;
        let function = functions.get(name).ok_or(format!("{name} is called, and not there"))?;
        if self.open.iter().any(|open| open == name) {
            return Err(format!("{name} calls itself"));
        }
        self.open.push(name.to_string());
        let mut works = Vec::new();
        for block in &function.blocks {
            works.push(self.work(function, &block.lines)?);
        }
        self.open.pop();
        let all: BTreeSet<usize> = (0..function.blocks.len()).collect();
        let way = self.heaviest(function, &works, &all, None);
        self.known.insert(name.to_string(), way.clone());
        Ok(way)
    }

    fn work(&mut self, function: &Function, lines: &[String]) -> Result<Work, String> {
        let mut work = Work { way: Way::default(), pieces: Vec::new() };
        for line in lines {
            match found(&self.module, function, line, self.sizes)? {
                None => {}
                Some(Found::Copy(words)) => work.way.copies.words.push(words),
                Some(Found::Fill) => work.way.fills.words.push("a fill".to_string()),
                Some(Found::Piece(piece)) => work.pieces.push(piece),
                Some(Found::Call(called)) => {
                    let way = self.of(&called)?;
                    work.way.add(&way);
                }
            }
        }
        Ok(work)
    }

    /// The bytes of pieces that may be of a table's copy.
    fn of_table<'w>(&self, works: impl Iterator<Item = &'w Work>) -> u64 {
        works
            .flat_map(|work| &work.pieces)
            .filter(|piece| piece.may_be_of_table(self.sizes.table))
            .map(|piece| piece.bytes)
            .sum()
    }

    /// The most on any way through these blocks, where no way leads back to the one that is cut.
    fn heaviest(
        &self,
        function: &Function,
        works: &[Work],
        blocks: &BTreeSet<usize>,
        cut: Option<usize>,
    ) -> Way {
        let next = |block: usize| {
            let leads = function.blocks[block].next.iter().copied();
            leads.filter(|to| blocks.contains(to) && Some(*to) != cut).collect::<Vec<usize>>()
        };
        let groups = groups(blocks, &next);
        let mut most_from: HashMap<usize, Way> = HashMap::new();
        let mut most = Way::default();
        // every group comes after all that it leads to
        for group in groups {
            let loops = group.len() > 1 || next(group[0]).contains(&group[0]);
            let mut way = if loops {
                self.around(function, works, &group, blocks)
            } else {
                let work = &works[group[0]];
                let mut way = work.way.clone();
                let whole = self.of_table(std::iter::once(work)) / self.sizes.table;
                let words = (0..whole).map(|_| "a table's bytes, piece by piece".to_string());
                way.copies.words.extend(words);
                way
            };
            let mut after = Way::default();
            for block in &group {
                for to in next(*block).iter().filter(|to| !group.contains(to)) {
                    after = after.most(&most_from[to]);
                }
            }
            way.add(&after);
            most = most.most(&way);
            for block in group {
                most_from.insert(block, way.clone());
            }
        }
        most
    }

    /// The most that a loop does: whatever it copies once round has no end; a loop that moves at
    /// least a record each time round copies a table.
    fn around(
        &self,
        function: &Function,
        works: &[Work],
        group: &[usize],
        outside: &BTreeSet<usize>,
    ) -> Way {
        let inside: BTreeSet<usize> = group.iter().copied().collect();
        let enters = |block: usize| {
            outside
                .iter()
                .any(|from| !inside.contains(from) && function.blocks[*from].next.contains(&block))
        };
        let head = *inside.iter().find(|block| enters(**block)).unwrap_or(&group[0]);
        let mut way = self.heaviest(function, works, &inside, Some(head)).repeated();
        // the blocks of no loop within this one
        let next = |block: usize| {
            let leads = function.blocks[block].next.iter().copied();
            leads.filter(|to| inside.contains(to) && *to != head).collect::<Vec<usize>>()
        };
        let own: Vec<usize> = groups(&inside, &next)
            .into_iter()
            .filter(|group| group.len() == 1 && !next(group[0]).contains(&group[0]))
            .flatten()
            .collect();
        if self.of_table(own.iter().map(|block| &works[*block])) >= self.sizes.record {
            way.copies.words.push("a table, record by record".to_string());
        }
        way
    }
}

/// Blocks that lead to each other, as groups; each group comes after all that it leads to. (Tarjan.)
fn groups(blocks: &BTreeSet<usize>, next: &dyn Fn(usize) -> Vec<usize>) -> Vec<Vec<usize>> {
    struct Search<'a> {
        next: &'a dyn Fn(usize) -> Vec<usize>,
        count: usize,
        index: HashMap<usize, usize>,
        low: HashMap<usize, usize>,
        stack: Vec<usize>,
        groups: Vec<Vec<usize>>,
    }
    impl Search<'_> {
        fn visit(&mut self, block: usize) {
            self.index.insert(block, self.count);
            self.low.insert(block, self.count);
            self.count += 1;
            self.stack.push(block);
            for to in (self.next)(block) {
                if !self.index.contains_key(&to) {
                    self.visit(to);
                    self.low.insert(block, self.low[&block].min(self.low[&to]));
                } else if self.stack.contains(&to) {
                    self.low.insert(block, self.low[&block].min(self.index[&to]));
                }
            }
            if self.low[&block] == self.index[&block] {
                let from = self.stack.iter().position(|open| *open == block).expect("it is there");
                self.groups.push(self.stack.split_off(from));
            }
        }
    }
    let mut search = Search {
        next,
        count: 0,
        index: HashMap::new(),
        low: HashMap::new(),
        stack: Vec::new(),
        groups: Vec::new(),
    };
    for block in blocks {
        if !search.index.contains_key(block) {
            search.visit(*block);
        }
    }
    search.groups
}
