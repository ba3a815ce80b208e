//! A model in memory, and the file that holds it.

/// A model: its initial state, the targets of each state's edges, the marks. `stays`: bytes 6–7 of its file are 1, so a
/// state without edges has an implied step to itself, which is no edge of the file. `second`: the marks of table 1, if its
/// file has two mark tables.
#[derive(Clone, Debug, PartialEq, Eq)]
pub struct Model {
    pub start: u16,
    pub stays: bool,
    pub succs: Vec<Vec<u16>>,
    pub marks: Vec<bool>,
    pub second: Option<Vec<bool>>,
}

impl Model {
    /// A model with no edge, no mark and one mark table.
    pub fn new(states: usize) -> Model {
        Model {
            start: 0,
            stays: false,
            succs: vec![Vec::new(); states],
            marks: vec![false; states],
            second: None,
        }
    }

    pub fn states(&self) -> usize {
        self.succs.len()
    }

    pub fn edges(&self) -> usize {
        self.succs.iter().map(Vec::len).sum()
    }

    /// The same model with the flag of bytes 6–7 as given.
    pub fn staying(&self, stays: bool) -> Model {
        Model {
            stays,
            ..self.clone()
        }
    }

    /// Some state has an implied step.
    pub fn implies_steps(&self) -> bool {
        self.stays && self.succs.iter().any(Vec::is_empty)
    }

    /// Adds an edge, unless it is there; the targets remain in ascending order.
    pub fn edge(&mut self, from: usize, to: usize) {
        let row = &mut self.succs[from];
        if let Err(at) = row.binary_search(&(to as u16)) {
            row.insert(at, to as u16);
        }
    }

    /// The model file.
    pub fn to_bytes(&self) -> Vec<u8> {
        let n = self.states();
        let m = self.edges();
        let tables = [Some(&self.marks), self.second.as_ref()];
        let tables = tables.into_iter().flatten();
        let edge_table = 24 + 2 * (n + 1);
        let mark_table = edge_table + 2 * m;
        let total = mark_table + tables.clone().count() * n.div_ceil(8);
        let mut file = Vec::with_capacity(total);
        for number in [n as u16, m as u16, self.start, self.stays as u16] {
            file.extend(number.to_le_bytes());
        }
        for number in [24, edge_table, mark_table, total] {
            file.extend((number as u32).to_le_bytes());
        }
        let mut place = 0u16;
        file.extend(place.to_le_bytes());
        for row in &self.succs {
            place += row.len() as u16;
            file.extend(place.to_le_bytes());
        }
        for target in self.succs.iter().flatten() {
            file.extend(target.to_le_bytes());
        }
        for eight in tables.flat_map(|marks| marks.chunks(8)) {
            let bits = eight.iter().enumerate();
            file.push(bits.map(|(i, &marked)| (marked as u8) << i).sum());
        }
        file
    }
}
