//! The three parsers behind one face, over tokens that were made before.

use super::super::Script;
use super::complex::ComplexState;
use super::myanmar::MyanmarState;
use super::simple::SimpleState;
use super::{CharCluster, Token};
use std::iter::Copied;
use std::slice::Iter;

type Feed<'a> = Copied<Iter<'a, Token>>;

pub enum Parser<'a> {
    Simple(SimpleState<Feed<'a>>),
    Myanmar(MyanmarState<Feed<'a>>),
    Complex(ComplexState<Feed<'a>>),
}

impl<'a> Parser<'a> {
    pub fn simple(tokens: &'a [Token]) -> Self {
        Self::Simple(SimpleState::new(tokens.iter().copied()))
    }

    pub fn myanmar(tokens: &'a [Token]) -> Self {
        Self::Myanmar(MyanmarState::new(tokens.iter().copied()))
    }

    pub fn complex(script: Script, tokens: &'a [Token]) -> Self {
        Self::Complex(ComplexState::new(script, tokens.iter().copied()))
    }

    /// Whether there was a call left; its cluster.
    pub fn next(&mut self, cluster: &mut CharCluster) -> bool {
        cluster.clear();
        match self {
            Self::Simple(state) => state.next(cluster),
            Self::Myanmar(state) => state.next(cluster),
            Self::Complex(state) => state.next(cluster),
        }
    }
}
