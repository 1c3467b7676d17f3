//! Servers and their rules.

use crate::bytes::*;

#[derive(Clone, Debug, PartialEq, Eq)]
pub struct Rule {
    pub yes: bool,
    pub methods: Vec<Vec<u8>>,
    pub parts: Vec<Vec<u8>>,
}

#[derive(Clone, Debug, PartialEq, Eq)]
pub struct Server {
    pub name: Vec<u8>,
    pub rules: Vec<Rule>,
}

impl Rule {
    fn fits(&self, method: &[u8], parts: &[Vec<u8>]) -> bool {
        self.methods.iter().any(|m| m == method) && parts.len() >= self.parts.len() && self.parts.iter().zip(parts).all(|(mine, asked)| *mine == lower(asked))
    }
}

impl Server {
    /// Whether the rules let this pass: the first that fits gives the verdict, and where none fits it is no.
    pub fn allows(&self, method: &[u8], parts: &[Vec<u8>]) -> bool {
        match self.rules.iter().find(|rule| rule.fits(method, parts)) {
            Some(rule) => rule.yes,
            None => false,
        }
    }
}
