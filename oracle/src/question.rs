//! A question to crate and model: a list, and the texts to search.

use crate::tables::{List, LEFTMOST_FIRST, LEFTMOST_LONGEST, STANDARD};

#[derive(Clone)]
pub struct Question {
    pub name: String,
    pub list: List,
    pub texts: Vec<Vec<u8>>,
    /// Whether the sample shows the cells; a very large table is left out.
    pub shows_cells: bool,
}

impl Question {
    pub fn new(name: &str, list: List, texts: Vec<Vec<u8>>) -> Question {
        Question {
            name: name.to_string(),
            list,
            texts,
            shows_cells: true,
        }
    }

    /// The same patterns and texts for each of the three kinds.
    pub fn in_all_kinds(&self) -> Vec<Question> {
        let of_kind = |kind| Question {
            list: self.list.of_kind(kind),
            ..self.clone()
        };
        [STANDARD, LEFTMOST_LONGEST, LEFTMOST_FIRST]
            .map(of_kind)
            .to_vec()
    }

    pub fn has_empty_pattern(&self) -> bool {
        self.list.patterns.iter().any(|p| p.bytes.is_empty())
    }
}

/// Texts written as strings.
pub fn texts(texts: &[&str]) -> Vec<Vec<u8>> {
    texts.iter().map(|text| text.as_bytes().to_vec()).collect()
}
