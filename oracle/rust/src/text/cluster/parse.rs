//! The three parsers behind one face.

use super::super::Script;
use super::complex::ComplexState;
use super::myanmar::MyanmarState;
use super::simple::SimpleState;
use super::{CharCluster, Token};

type Feed = std::vec::IntoIter<Token>;

pub enum Parser {
    Simple(SimpleState<Feed>),
    Myanmar(MyanmarState<Feed>),
    Complex(ComplexState<Feed>),
}

pub struct Call {
    pub start: usize,
    pub next: usize,
    pub cluster: CharCluster,
}

impl Parser {
    pub fn simple(tokens: Vec<Token>) -> Self {
        Self::Simple(SimpleState::new(tokens.into_iter()))
    }

    pub fn myanmar(tokens: Vec<Token>) -> Self {
        Self::Myanmar(MyanmarState::new(tokens.into_iter()))
    }

    pub fn complex(script: Script, tokens: Vec<Token>) -> Self {
        Self::Complex(ComplexState::new(script, tokens.into_iter()))
    }

    fn next(&mut self) -> Option<CharCluster> {
        let mut cluster = CharCluster::new();
        let more = match self {
            Self::Simple(state) => state.next(&mut cluster),
            Self::Myanmar(state) => state.next(&mut cluster),
            Self::Complex(state) => state.next(&mut cluster),
        };
        more.then_some(cluster)
    }

    /// All calls to the end. A state's current token is its own affair, but every call pushes
    /// that token first; so a call starts at its first push, and hands back the start of the
    /// call after it, or the end.
    pub fn calls(mut self, end: usize) -> Vec<Call> {
        let mut calls: Vec<Call> = Vec::new();
        while let Some(cluster) = self.next() {
            let start = cluster.pushed[0].token.info.properties.token;
            if let Some(last) = calls.last_mut() {
                last.next = start;
            }
            calls.push(Call { start, next: end, cluster });
        }
        calls
    }
}
