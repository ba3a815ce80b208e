//! A property in memory, and the file that holds it.

use crate::model::Model;

/// A property: a model, and a mask for each of its edges, row by row.
#[derive(Clone, Debug, PartialEq, Eq)]
pub struct Property {
    pub model: Model,
    pub masks: Vec<Vec<u16>>,
}

impl Property {
    /// A property with one mask on all edges of a model.
    pub fn new(model: Model, mask: u16) -> Property {
        let masks = model.succs.iter().map(|row| vec![mask; row.len()]);
        Property {
            masks: masks.collect(),
            model,
        }
    }

    /// The property file: the model's, with a total length that counts the masks, and then the masks.
    pub fn to_bytes(&self) -> Vec<u8> {
        let mut file = self.model.to_bytes();
        let total = file.len() + 2 * self.model.edges();
        file[20..24].copy_from_slice(&(total as u32).to_le_bytes());
        for mask in self.masks.iter().flatten() {
            file.extend(mask.to_le_bytes());
        }
        file
    }
}
